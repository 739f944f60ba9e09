# Completions of cordkit-lsp for fish. Files are offered where no rule says otherwise.

complete -c cordkit-lsp -s h -l help -d 'Print help'
complete -c cordkit-lsp -l whole -d 'Ask the editor for whole texts'
complete -c cordkit-lsp -l start -r -d 'Record a file from now on'
complete -c cordkit-lsp -l stop -r -d 'Record a file no more'
complete -c cordkit-lsp -l continue -r -d 'Keep what there is under another name'
complete -c cordkit-lsp -l show -r -d 'Write the text of a minute'
complete -c cordkit-lsp -l runs -r -d 'Print where bytes come from, and when'
