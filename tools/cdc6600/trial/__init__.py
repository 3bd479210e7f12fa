"""The trial of the set-up on a fresh machine, `.ci/fresh-machine`: a minimal Debian with the commands of README.md"""
