# How a command is run with a terminal. Sourced.

# on_terminal COMMAND FILE: a terminal on all that the command does not redirect; what shows there goes into the file. Ends as the command does, or with 77 where there is no way.
on_terminal() {
    if command -v script > /dev/null; then
        script -qec "$1" /dev/null < /dev/null > "$2"
    elif command -v python3 > /dev/null; then
        python3 -c 'import pty, sys; sys.exit(pty.spawn(["sh", "-c", sys.argv[1]]) >> 8)' "$1" < /dev/null > "$2"
    else
        return 77
    fi
}
