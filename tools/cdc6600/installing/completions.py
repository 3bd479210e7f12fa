"""The scripts that complete the program's command line in a shell."""

from pathlib import Path

# Where the script of each shell is installed below PREFIX.
FILES = {
    "bash": "share/bash-completion/completions/cdc6600",
    "zsh": "share/zsh/site-functions/_cdc6600",
    "fish": "share/fish/vendor_completions.d/cdc6600.fish",
}


def script_file(shell: str) -> Path:
    """The file with the script of a shell."""
    return Path(__file__).with_name(f"cdc6600.{shell}")
