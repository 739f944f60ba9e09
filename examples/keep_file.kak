# Each .txt file that is saved is committed by the keep_file beside this file (docs/COMMIT.md). Why one was not is shown in a box until a key is pressed,
# and so is what the commit told. Where no client gave the command, each shows it.
declare-option -hidden str keep_file %sh{ echo "${kak_source%/*}/keep_file" }
declare-option -hidden str kept_said
declare-option -hidden str-list kept_waiting
hook global ClientClose .* %{ set-option -remove global kept_waiting %val{hook_param} }
hook global BufWritePost .*\.txt %{ evaluate-commands %sh{
    title=
    said=$("$kak_opt_keep_file" "$kak_hook_param" 2>&1) || title='not kept'
    case $title$said in keep_file:*) title=kept ;; esac
    [ -n "$title" ] || exit 0
    [ -n "$kak_opt_kept_waiting" ] && how=-add || how=
    printf "set-option $how global kept_said '%s\n'\n" "$(printf %s "$said" | sed "s/'/''/g")"
    for client in ${kak_client:-$kak_client_list}; do
        wait="set-option -add global kept_waiting $client; on-key %{ info -style modal; set-option -remove global kept_waiting $client }"
        case " $kak_opt_kept_waiting " in *" $client "*) wait= ;; esac
        printf "evaluate-commands -client %s %%{ info -style modal -title '%s' -- %%opt{kept_said}; echo -markup '{Error}%s'; %s }\n" "$client" "$title" "$title" "$wait"
    done
} }
