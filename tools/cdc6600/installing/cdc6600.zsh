#compdef cdc6600
# Completes the words of cdc6600 in zsh.
_cdc6600() {
    local curcontext=$curcontext state line
    local -a commands=(
        'run:Runs the deck on standard input and prints the machine'\''s dump'
        'replay:Goes through LOG on the deck on standard input, one instruction at a time, and prints the machine'\''s dump'
        'events:Makes the events of the schedule after the deck on standard input, one a line, and answers each'
        'list:Prints the words of the deck on standard input with their instructions'
        'help:Print this message or the help of the given subcommand(s)'
    )
    _arguments -C '(- *)'{-h,--help}'[Print help]' '(- *)'{-V,--version}'[Print version]' '1:command:->command' '*::argument:->argument' && return
    case $state in
        command) _describe -t commands command commands ;;
        argument)
            case $line[1] in
                run) _arguments '--sequential[Does one instruction at a time, without threads]' '--budget=[Issues at most N instructions]:N: ' '(- *)'{-h,--help}'[Print help]' ;;
                replay) _arguments '--log-follows[Reads the log from the line after the deck]' '(- *)'{-h,--help}'[Print help]' ':LOG: ' ;;
                events) _arguments '--budget=[Issues at most N instructions]:N: ' '(- *)'{-h,--help}'[Print help]' ;;
                list) _arguments '(- *)'{-h,--help}'[Print help]' ;;
            esac
            ;;
    esac
}
_cdc6600 "$@"
