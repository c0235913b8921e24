complete -c COMMAND -a "(COMMAND (string match -v -- '-*' (commandline -opc)[2..2]) --help 2>&1 | string match -r -g '^  ([a-z]+)  |(--[a-z][a-z-]*)')"
