# Completions of cordkit-verify for fish. Files are offered where no rule says otherwise.

complete -c cordkit-verify -s h -l help -d 'Print help'
complete -c cordkit-verify -l text -x -d 'Write the text of a revision'
complete -c cordkit-verify -l graph -d 'Write the nodes and roots as a graph'
complete -c cordkit-verify -l at-most -x -d 'Refuse what may take more looks at nodes'
