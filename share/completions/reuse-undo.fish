# Completes the words of reuse-undo in fish: put this file into a folder of fish_complete_path, as
# /usr/share/fish/vendor_completions.d.

# What the words before the current one give to an option, or the second argument where none does
function __reuse_undo_value
    set -l words (commandline -opc)
    set -l value $argv[2]
    for index in (seq (count $words))
        if test "$words[$index]" = $argv[1]; and test $index -lt (count $words)
            set value $words[(math $index + 1)]
        else if string match -q -- "$argv[1]=*" $words[$index]
            set value (string replace -- "$argv[1]=" '' $words[$index])
        end
    end
    string replace -r '^~/' "$HOME/" -- $value
end

# Whether the first word that is neither an option nor the root is this one, or whether there is
# none where this is empty
function __reuse_undo_subcommand_is
    set -l words (commandline -opc)
    set -e words[1]
    while set -q words[1]
        switch $words[1]
            case --root
                set -e words[1]
            case '-*'
            case '*'
                test $words[1] = "$argv[1]"
                return
        end
        set -e words[1]
    end
    test -z "$argv[1]"
end

# Files beneath the root by their paths from there, a folder with a slash at its end
function __reuse_undo_paths
    set -l root (__reuse_undo_value --root .)
    set -l token (commandline -ct)
    for path in $root/$token*
        set -l name (string sub -s (math (string length -- $root) + 2) -- $path)
        if test -d $path
            echo $name/
        else
            echo $name
        end
    end
end

# The ids whose texts the folder of --texts has
function __reuse_undo_ids
    set -l texts (__reuse_undo_value --texts .)
    for path in $texts/*.txt
        string replace -r '.*/(.*)\.txt$' '$1' -- $path
    end
end

# The numbers of the steps below the root, of those that are in this state where one is given
function __reuse_undo_steps
    set -l root (__reuse_undo_value --root .)
    reuse-undo --root $root log 2>/dev/null | string replace -rf "^([0-9]+) .* $argv[1].*\$" '$1'
end

complete -c reuse-undo -f
complete -c reuse-undo -n 'not __reuse_undo_subcommand_is help' -l root -x -a '(__fish_complete_directories)' \
    -d 'The root of the source tree'
complete -c reuse-undo -n 'not __reuse_undo_subcommand_is help' -l up \
    -d 'Work on the tree around the working folder'
complete -c reuse-undo -n 'not __reuse_undo_subcommand_is help' -s v -l verbose -d 'Tell notes on standard error'
complete -c reuse-undo -n 'not __reuse_undo_subcommand_is help' -l no-sync -d 'Leave out all syncs'
complete -c reuse-undo -n 'not __reuse_undo_subcommand_is help' -l allow-owner-change \
    -d 'Change files even if they cannot keep owner and group'
complete -c reuse-undo -n 'not __reuse_undo_subcommand_is help' -l trust-journal \
    -d 'Open the journal even if it belongs to another user'
complete -c reuse-undo -n 'not __reuse_undo_subcommand_is help' -s h -l help -d 'Print help'
complete -c reuse-undo -n '__reuse_undo_subcommand_is ""' -s V -l version -d 'Print the version'

complete -c reuse-undo -n '__reuse_undo_subcommand_is ""' -a annotate \
    -d 'Add copyright and licensing information to files'
complete -c reuse-undo -n '__reuse_undo_subcommand_is ""' -a amend \
    -d 'Change the copyright and licensing information that files have'
complete -c reuse-undo -n '__reuse_undo_subcommand_is ""' -a styles \
    -d 'List the names that have no comment style, and add ready ones'
complete -c reuse-undo -n '__reuse_undo_subcommand_is ""' -a convert-dep5 \
    -d 'Put a REUSE.toml in the place of .reuse/dep5'
complete -c reuse-undo -n '__reuse_undo_subcommand_is ""' -a download -d 'Copy licence texts into LICENSES'
complete -c reuse-undo -n '__reuse_undo_subcommand_is ""' -a undo -d 'Take the last step back'
complete -c reuse-undo -n '__reuse_undo_subcommand_is ""' -a redo -d 'Make the step again that was undone last'
complete -c reuse-undo -n '__reuse_undo_subcommand_is ""' -a revert -d 'Take a step back by a new one'
complete -c reuse-undo -n '__reuse_undo_subcommand_is ""' -a recover \
    -d 'Roll back a step that a stopped run left half made'
complete -c reuse-undo -n '__reuse_undo_subcommand_is ""' -a forget -d 'Take steps out of the history'
complete -c reuse-undo -n '__reuse_undo_subcommand_is ""' -a log -d 'List the steps'
complete -c reuse-undo -n '__reuse_undo_subcommand_is ""' -a show -d 'Tell what a step changed'
complete -c reuse-undo -n '__reuse_undo_subcommand_is ""' -a help -d 'Print help'
complete -c reuse-undo -n '__reuse_undo_subcommand_is help' \
    -a 'annotate amend styles convert-dep5 download undo redo revert recover forget log show'

set -l annotate -c reuse-undo -n '__reuse_undo_subcommand_is annotate'
set -l prefixes 'spdx spdx-c spdx-symbol spdx-string spdx-string-c spdx-string-symbol'
set -l prefixes "$prefixes string string-c string-symbol symbol"
complete $annotate -s c -l copyright -x -d 'A copyright holder'
complete $annotate -s l -l license -x -d 'An SPDX licence expression'
complete $annotate -l contributor -x -d 'A contributor'
complete $annotate -l text -r -F -d 'A text below the tags, that a file holds'
complete $annotate -s y -l year -x -d 'The year of the copyright'
complete $annotate -l exclude-year -d 'Write no year'
complete $annotate -s s -l style -x -a 'python c css html haskell tex lisp semicolon ml vim' \
    -d 'The comment style of all paths'
complete $annotate -l copyright-prefix -x -a $prefixes -d 'What a notice begins with'
complete $annotate -l copyright-style -x -a $prefixes -d 'What a notice begins with'
complete $annotate -l merge-copyrights -d 'Write the notices of one holder as one'
complete $annotate -l single-line -d 'Write single-line comments'
complete $annotate -l multi-line -d 'Write multi-line comments'
complete $annotate -l no-replace -d 'Put a new header above the one that is there'
complete $annotate -s r -l recursive -d 'Annotate the files beneath folders'
complete $annotate -l files-from -r -F -d 'Of the files beneath folders those that a file lists'
complete $annotate -l exclude -x -d 'Of the files beneath folders none that a glob matches'
complete $annotate -l force-dot-license -d 'Write PATH.license, whatever PATH is'
complete $annotate -l fallback-dot-license -d 'Write PATH.license where the style is unknown'
complete $annotate -l skip-unrecognised -d 'Skip a path whose style is unknown'
complete $annotate -l skip-existing -d 'Skip a path that has licensing information'
complete $annotate -a '(__reuse_undo_paths)'

set -l amend -c reuse-undo -n '__reuse_undo_subcommand_is amend'
complete $amend -l replace-license -x -d 'Write another licence'
complete $amend -l remove-license -x -d 'Remove a licence'
complete $amend -l replace-holder -x -d 'Write another holder'
complete $amend -l remove-holder -x -d 'Remove the notices of a holder'
complete $amend -l replace-contributor -x -d 'Write another contributor'
complete $amend -l remove-contributor -x -d 'Remove a contributor'
complete $amend -l remove-text -r -F -d 'Remove a text that a file holds'
complete $amend -l remove-header -d 'Remove headers with all their tags'
complete $amend -l until -x -d 'The year that the years of notices are to reach'
complete $amend -l copyright-prefix -x -a $prefixes -d 'What a notice begins with'
complete $amend -l holder -x -d 'The holder whose notices get the year or the prefix'
complete $amend -l everywhere -d 'Amend each tag of a text, wherever it stands'
complete $amend -s s -l style -x -a 'python c css html haskell tex lisp semicolon ml vim' \
    -d 'The comment style of all paths'
complete $amend -s r -l recursive -d 'Amend the files beneath folders'
complete $amend -l files-from -r -F -d 'Of the files beneath folders those that a file lists'
complete $amend -l exclude -x -d 'Of the files beneath folders none that a glob matches'
complete $amend -a '(__reuse_undo_paths)'

set -l styles -c reuse-undo -n '__reuse_undo_subcommand_is styles'
complete $styles -l add -d 'Add ready styles for the names'
complete $styles -l all -d 'Print all ready styles'
complete $styles -l comments -d 'With --all, print all ready comments'
complete $styles -l files-from -r -F -d 'Of the files beneath folders those that a file lists'
complete $styles -l exclude -x -d 'Of the files beneath folders none that a glob matches'
complete $styles -a '(__reuse_undo_paths)'

complete -c reuse-undo -n '__reuse_undo_subcommand_is download' -l texts -x -a '(__fish_complete_directories)' \
    -d 'The folder of the licence texts'
complete -c reuse-undo -n '__reuse_undo_subcommand_is download' -a '(__reuse_undo_ids)'

for word in annotate amend styles convert-dep5 download undo redo revert
    complete -c reuse-undo -n "__reuse_undo_subcommand_is $word" -s n -l dry-run \
        -d 'Print what would change, and make no step'
    complete -c reuse-undo -n "__reuse_undo_subcommand_is $word" -l check \
        -d 'A dry run, with status 1 if a file would change'
    complete -c reuse-undo -n "__reuse_undo_subcommand_is $word" -l diff \
        -d 'With --dry-run or --check, print a diff too'
    complete -c reuse-undo -n "__reuse_undo_subcommand_is $word" -l json \
        -d 'With --dry-run or --check, print JSON objects'
end
for word in annotate amend styles convert-dep5
    complete -c reuse-undo -n "__reuse_undo_subcommand_is $word" -l exit-non-zero-on-change \
        -d 'Exit with status 1 if a file changes'
end
complete -c reuse-undo -n '__reuse_undo_subcommand_is recover' -l skip-moved \
    -d 'Leave a file if it cannot be rolled back'
complete -c reuse-undo -n '__reuse_undo_subcommand_is revert' -l skip-moved \
    -d 'Leave a file where the step cannot be taken back'
complete -c reuse-undo -n '__reuse_undo_subcommand_is revert' -a '(__reuse_undo_steps done)'
complete -c reuse-undo -n '__reuse_undo_subcommand_is forget' -l all -d 'Forget all steps'
complete -c reuse-undo -n '__reuse_undo_subcommand_is forget' -a '(__reuse_undo_steps)'
complete -c reuse-undo -n '__reuse_undo_subcommand_is log' -l json -d 'Print a JSON object on each line'
complete -c reuse-undo -n '__reuse_undo_subcommand_is show' -l diff \
    -d 'Print the lines that the step took away and wrote'
complete -c reuse-undo -n '__reuse_undo_subcommand_is show' -l json -d 'Print a JSON object'
complete -c reuse-undo -n '__reuse_undo_subcommand_is show' -a '(__reuse_undo_steps)'
