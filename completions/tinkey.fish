# completion of tinkey for fish; made by tools/words
# whether the command, which is the first word, is one of these, and isn't only asked for help
function __tinkey_is
    set -l given (commandline -opc)
    contains -- "$given[2]" $argv; and not contains -- "$given[3]" --help -h
end
# whether so many words come before, the program among them
function __tinkey_at
    test (count (commandline -opc)) -eq $argv[1]
end
# whether an option was given
function __tinkey_has
    set -l given (commandline -opc)
    string match -qr -- "^$argv[1](=|\$)" $given
end
# the templates, from the program that the line names
function __tinkey_templates
    set -l given (commandline -opc)
    set -l program (string replace -r '^~/' $HOME/ -- $given[1])
    command -q $program; and $program list-key-templates 2>/dev/null
end
complete -c tinkey -f
complete -c tinkey -n '__tinkey_at 1' -a create-keyset -d 'makes a keyset of one new key, the primary'
complete -c tinkey -n '__tinkey_at 1' -a add-key -d 'adds a new key'
complete -c tinkey -n '__tinkey_at 1' -a rotate-keyset -d 'adds a new key, and makes it the primary'
complete -c tinkey -n '__tinkey_at 1' -a promote-key -d 'makes an enabled key the primary'
complete -c tinkey -n '__tinkey_at 1' -a enable-key -d 'makes a key ENABLED'
complete -c tinkey -n '__tinkey_at 1' -a disable-key -d 'makes a key DISABLED: it isn’t used, and can be enabled again'
complete -c tinkey -n '__tinkey_at 1' -a destroy-key -d 'destroys a key’s material for good: what it sealed never opens again'
complete -c tinkey -n '__tinkey_at 1' -a delete-key -d 'removes a key for good: what it sealed never opens again'
complete -c tinkey -n '__tinkey_at 1' -a list-keyset -d 'lists a keyset without key material'
complete -c tinkey -n '__tinkey_at 1' -a convert-keyset -d 'writes a keyset in another form, or under another master'
complete -c tinkey -n '__tinkey_at 1' -a list-key-templates -d 'lists the names of the templates for new keys'
complete -c tinkey -n '__tinkey_at 1' -a seal -d 'seals standard input under the primary key'
complete -c tinkey -n '__tinkey_at 1' -a open -d 'opens what any enabled key sealed'
complete -c tinkey -n '__tinkey_at 1' -a dseal -d 'seals deterministically: equal texts give equal bytes'
complete -c tinkey -n '__tinkey_at 1' -a dopen -d 'opens what dseal sealed'
complete -c tinkey -n '__tinkey_at 1' -a reseal -d 'opens, and seals again under the primary key'
complete -c tinkey -n '__tinkey_at 1' -a dreseal -d 'as reseal, of what dseal sealed'
complete -c tinkey -n '__tinkey_at 1' -a sseal -d 'seals a stream of any length, in one pass'
complete -c tinkey -n '__tinkey_at 1' -a sopen -d 'opens a stream; it is complete only if the exit code is 0'
complete -c tinkey -n '__tinkey_at 1' -a sreseal -d 'opens a stream, and seals it again under the primary key, in one pass'
complete -c tinkey -n '__tinkey_at 1' -a tag -d 'tags standard input under the primary key'
complete -c tinkey -n '__tinkey_at 1' -a verify -d 'says whether a tag is valid under any enabled key'
complete -c tinkey -n '__tinkey_at 1' -a derive -d 'derives bytes from standard input'
complete -c tinkey -n '__tinkey_at 1' -a session -d 'answers lines that seal, open, tag, verify, derive, edit and save'
complete -c tinkey -n '__tinkey_at 1' -a selftest -d 'seals, opens and edits many times, and counts the results'
complete -c tinkey -n '__tinkey_at 1' -a wrap-keyset -d 'seals a keyset under another one, the master'
complete -c tinkey -n '__tinkey_at 1' -a unwrap-keyset -d 'opens a keyset that was wrapped'
complete -c tinkey -n '__tinkey_at 1' -a eseal -d 'seals under a fresh data key, and that key under the keyset: an envelope'
complete -c tinkey -n '__tinkey_at 1' -a eopen -d 'opens an envelope'
complete -c tinkey -n '__tinkey_at 1' -a ereseal -d 'opens an envelope’s data key, and seals that again under the primary key'
complete -c tinkey -n '__tinkey_at 1' -a srange -d 'opens a range of a stream in a file'
complete -c tinkey -n '__tinkey_at 1' -a key-of -d 'shows which keys may have made a sealed text, tag, envelope or stream'
complete -c tinkey -n '__tinkey_at 1' -a help -d 'lists the commands, or prints the help on a topic'
complete -c tinkey -n '__tinkey_at 1' -a version -d 'prints the version'
complete -c tinkey -n '__tinkey_at 2; and __tinkey_is help' -a 'create-keyset add-key rotate-keyset promote-key enable-key disable-key destroy-key delete-key list-keyset convert-keyset list-key-templates seal open dseal dopen reseal dreseal sseal sopen sreseal tag verify derive session selftest wrap-keyset unwrap-keyset eseal eopen ereseal srange key-of exit help version'
complete -c tinkey -n '__tinkey_at 2; and __tinkey_is create-keyset add-key rotate-keyset promote-key enable-key disable-key destroy-key delete-key list-keyset convert-keyset list-key-templates seal open dseal dopen reseal dreseal sseal sopen sreseal tag verify derive session selftest wrap-keyset unwrap-keyset eseal eopen ereseal srange key-of' -l help -d 'explains the command'
complete -c tinkey -n '__tinkey_is create-keyset add-key rotate-keyset' -l key-template -x -a '(__tinkey_templates)' -d 'the template of the new key'
complete -c tinkey -n '__tinkey_is promote-key enable-key disable-key destroy-key delete-key' -l key-id -x -d 'the id of the key to change'
complete -c tinkey -n '__tinkey_is add-key rotate-keyset promote-key enable-key disable-key destroy-key delete-key list-keyset convert-keyset wrap-keyset unwrap-keyset' -l in -r -F -d 'the file of the keyset to read'
complete -c tinkey -n '__tinkey_is add-key rotate-keyset promote-key enable-key disable-key destroy-key delete-key list-keyset convert-keyset wrap-keyset unwrap-keyset' -l in-format -x -a 'json binary' -d 'the form of that keyset'
complete -c tinkey -n '__tinkey_is create-keyset add-key rotate-keyset promote-key enable-key disable-key destroy-key delete-key convert-keyset seal open dseal dopen reseal dreseal sseal sopen sreseal tag derive session wrap-keyset unwrap-keyset eseal eopen ereseal srange' -l out -r -F -d 'the file to make'
complete -c tinkey -n '__tinkey_is create-keyset add-key rotate-keyset promote-key enable-key disable-key destroy-key delete-key convert-keyset session wrap-keyset unwrap-keyset' -l out-format -x -a 'json binary' -d 'the form of the keyset to write'
complete -c tinkey -n '__tinkey_is seal open dseal dopen reseal dreseal sseal sopen sreseal tag verify derive session eseal eopen ereseal srange key-of' -l keyset -r -F -d 'the file of the keyset to use'
complete -c tinkey -n '__tinkey_is seal open dseal dopen reseal dreseal sseal sopen sreseal tag verify derive session eseal eopen ereseal srange key-of' -l keyset-format -x -a 'json binary' -d 'the form of that keyset'
complete -c tinkey -n '__tinkey_is seal open dseal dopen reseal dreseal sseal sopen sreseal eseal eopen srange key-of; and not __tinkey_has --ad-hex' -l ad -x -d 'the associated data'
complete -c tinkey -n '__tinkey_is seal open dseal dopen reseal dreseal sseal sopen sreseal eseal eopen srange key-of; and not __tinkey_has --ad' -l ad-hex -x -d 'the associated data in hexadecimal'
complete -c tinkey -n '__tinkey_is verify' -l tag-hex -x -d 'the tag to verify, in hexadecimal'
complete -c tinkey -n '__tinkey_is derive srange' -l length -x -d 'how many bytes to derive, or to open'
complete -c tinkey -n '__tinkey_is selftest' -l seed -x -d 'the number that the self-test is made from'
complete -c tinkey -n '__tinkey_is selftest' -l lines -x -d 'how many lines it has'
complete -c tinkey -n '__tinkey_is create-keyset add-key rotate-keyset promote-key enable-key disable-key destroy-key delete-key list-keyset convert-keyset seal open dseal dopen reseal dreseal sseal sopen sreseal tag verify derive session wrap-keyset unwrap-keyset eseal eopen ereseal srange key-of' -l master -r -F -d 'the file of the master, the keyset under which this one is encrypted'
complete -c tinkey -n '__tinkey_is create-keyset add-key rotate-keyset promote-key enable-key disable-key destroy-key delete-key list-keyset convert-keyset seal open dseal dopen reseal dreseal sseal sopen sreseal tag verify derive session wrap-keyset unwrap-keyset eseal eopen ereseal srange key-of' -l master-format -x -a 'json binary' -d 'the form of the master'
complete -c tinkey -n '__tinkey_is convert-keyset' -l new-master -r -F -d 'the file of the master that the keyset is put under'
complete -c tinkey -n '__tinkey_is convert-keyset' -l new-master-format -x -a 'json binary' -d 'the form of that master'
complete -c tinkey -n '__tinkey_is eseal eopen ereseal' -l dek-template -x -a '(__tinkey_templates)' -d 'the template of the data key'
complete -c tinkey -n '__tinkey_is srange' -l file -r -F -d 'the file of the stream'
complete -c tinkey -n '__tinkey_is srange' -l from -x -d 'the offset of the first byte to open'
complete -c tinkey -n '__tinkey_is tag derive' -l hex -d 'writes the output in hexadecimal'
complete -c tinkey -n '__tinkey_is key-of' -l as -x -a 'text envelope stream' -d 'what the input is: a sealed text or a tag, an envelope, or a stream'
complete -c tinkey -n '__tinkey_is list-key-templates' -l for -x -a 'seal open dseal dopen reseal dreseal sseal sopen sreseal tag verify derive wrap-keyset unwrap-keyset eseal eopen ereseal srange' -d 'the command that the templates’ keys are to serve'
complete -c tinkey -n '__tinkey_is session' -l saved -d 'seals and tags only under a keyset that a file has'
