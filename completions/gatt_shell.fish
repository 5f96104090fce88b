# Completes the words of gatt_shell in fish, which loads it by the name of the command, from
# share/fish/vendor_completions.d. tests/test_completion.py compares it with the help of each command.

# Tells whether the command is one of these.
function __gatt_shell_is
    set -l words (commandline -opc)
    contains -- "$words[2]" $argv
end

# Tells whether the word of the cursor has one of these numbers, of which the first command has 1.
function __gatt_shell_at
    contains -- (count (commandline -opc)) $argv
end

# Prints the folders that complete the word, or what follows the `=` of an option.
function __gatt_shell_folders
    __fish_complete_directories (commandline -ct | string replace -r -- '^--[a-z-]*=' '')
end

set -l commands att check show may compare expect run words serve host tell help

complete -c gatt_shell -f
complete -c gatt_shell -n '__gatt_shell_at 1' -a "$commands"
complete -c gatt_shell -n '__gatt_shell_is help' -a "$commands"
complete -c gatt_shell -n '__gatt_shell_at 1' -l version
complete -c gatt_shell -n '__gatt_shell_at 1; or __gatt_shell_is att check show may compare expect run words serve host tell' -l help

complete -c gatt_shell -n '__gatt_shell_is att run' -l words
complete -c gatt_shell -n '__gatt_shell_is show serve run host' -l rows -r -F
complete -c gatt_shell -n '__gatt_shell_is show' -l attributes
complete -c gatt_shell -n '__gatt_shell_is show' -l width -x
complete -c gatt_shell -n '__gatt_shell_is may' -l authorized
complete -c gatt_shell -n '__gatt_shell_is may' -l unencrypted
complete -c gatt_shell -n '__gatt_shell_is compare' -l new-keys -r -F
complete -c gatt_shell -n '__gatt_shell_is run' -l next -r -F
complete -c gatt_shell -n '__gatt_shell_is run' -l rx-mtu -x
complete -c gatt_shell -n '__gatt_shell_is run' -l notices
complete -c gatt_shell -n '__gatt_shell_is run' -l echo
complete -c gatt_shell -n '__gatt_shell_is words' -l table -r -F

complete -c gatt_shell -n '__gatt_shell_is host' -l state -x -a '(__gatt_shell_folders)'
for it in capture serial application
    complete -c gatt_shell -n '__gatt_shell_is host' -l $it -r -F
end
for it in listen connect application-port name advertise address capture-size slots idle stranger patience
    complete -c gatt_shell -n '__gatt_shell_is host' -l $it -x
end
for it in save-updates drop-unknown wait-for-application log-values log-refusals once
    complete -c gatt_shell -n '__gatt_shell_is host' -l $it
end

complete -c gatt_shell -n '__gatt_shell_is check show compare expect run serve host' -F
complete -c gatt_shell -n '__gatt_shell_is may; and __gatt_shell_at 2 3' -F
complete -c gatt_shell -n '__gatt_shell_is tell; and __gatt_shell_at 2' -F
complete -c gatt_shell -n '__gatt_shell_is tell; and __gatt_shell_at 3' \
    -a 'update allow deny disconnect value connections subscriptions find application reload stop'
