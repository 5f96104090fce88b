# Completes the words of hci_bridge in fish. tests/test_completion.py compares it with what there is.

# Prints the controllers of this machine.
function __hci_bridge_controllers
    set -l there /sys/class/bluetooth/hci*
    string replace -r '.*/' '' -- $there | string match -v '*:*'
end

# Tells whether the word before the cursor is the name of a controller.
function __hci_bridge_is_named
    set -l words (commandline -opc)
    string match -qr '^hci[0-9]' -- $words[-1]
end

complete -c hci_bridge -f
complete -c hci_bridge -n 'not __hci_bridge_is_named; and not contains -- --down (commandline -opc)' -a --down
complete -c hci_bridge -n 'not __hci_bridge_is_named' -a '(__hci_bridge_controllers)'
complete -c hci_bridge -n __hci_bridge_is_named -F
