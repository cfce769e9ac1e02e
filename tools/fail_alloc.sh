#!/usr/bin/env bash
# Refuses each allocation in turn to the program, as `make run` leaves it: a run of each command with the
# first allocation refused, then with the second, and so on, until a run meets no refusal. Each run must
# end as the plain one, or with exit code 7 and `tinkey: out of memory`. At 7 nothing was written, but for
# a session's first replies, and there is no new file. The files that were there stay.
#
#     tools/fail_alloc.sh [NAME ..]    of all cases, or of these
#
# Outside the merge gate. It wants cc, for a library of a few lines that stands before malloc and realloc.
# What random bytes settle is compared in its form alone.
set -u

top=$(cd "$(dirname "$0")/.." && pwd)
tinkey=$top/tinkey
[ -x "$tinkey" ] || { echo "tools/fail_alloc.sh wants ./tinkey: make run"; exit 2; }
work=$(mktemp -d) || exit 2
trap 'rm -rf "$work"' EXIT
mkdir "$work/files" "$work/run"
cd "$work/run" || exit 2

cat > "$work/refuse.c" <<'C'
#include <errno.h>
#include <stdlib.h>
#include <unistd.h>

void *__libc_malloc(size_t size);
void *__libc_realloc(void *block, size_t size);
static long left;

__attribute__((constructor)) static void begin(void) {
    const char *number = getenv("REFUSED");
    left = number ? atol(number) : 0;
}

/* Whether this call is the one to be refused, which is told on the ninth descriptor. */
static int refused(void) {
    if (left == 0 || --left > 0) return 0;
    if (write(9, "x", 1) != 1) _exit(9);
    errno = ENOMEM;
    return 1;
}

void *malloc(size_t size) { return refused() ? NULL : __libc_malloc(size); }
void *realloc(void *block, size_t size) { return refused() ? NULL : __libc_realloc(block, size); }
C
cc -O1 -fPIC -shared -o "$work/refuse.so" "$work/refuse.c" || exit 2

# hex DIGITS: these bytes.
hex() { printf '%b' "$(printf %s "$1" | sed 's/../\\x&/g')"; }
# zeros COUNT: so many zero bytes.
zeros() { head -c "$1" /dev/zero; }
# keyset TYPE VALUE: a keyset in JSON of one RAW key of the id 7, with this value in base64.
keyset() {
    printf '%s' '{"primaryKeyId":7,"key":[{"keyData":{"typeUrl":"type.googleapis.com/google.crypto.tink.'"$1"
    printf '%s' '","value":"'"$2"'","keyMaterialType":"SYMMETRIC"},"status":"ENABLED","keyId":7,"outputPrefixType":"RAW"}]}'
}

# The files that commands read: a key for AES-GCM, of zero bytes, and with it a second one, DISABLED; a key
# for HMAC; and keys for AES-SIV, for derived bytes and for streams in segments of 4,096 bytes.
files=$work/files
cp "$top/examples/aes128-gcm.binary" "$files/gcm"
cp "$top/examples/hmac-sha256.binary" "$files/hmac"
record=$(tail -c 85 "$files/gcm" | od -An -v -tx1 | tr -d ' \n')
second=1250$(printf %s "$record" | cut -c 5-152)
{ cat "$files/gcm"; hex "${second}100218092001"; } > "$files/two"
{ cat "$files/gcm"; hex "${second}100118092001"; } > "$files/both"
keyset AesSivKey EkD//v38+/r5+Pf29fTz8vHw8PHy8/T19vf4+fr7/P3+/wABAgMEBQYHCAkKCwwNDg8QERITFBUWFxgZGhscHR4f > "$files/siv"
keyset HmacPrfKey EgIIAxoUCwsLCwsLCwsLCwsLCwsLCwsLCws= > "$files/prf"
keyset AesGcmHkdfStreamingKey EgcIgCAQEBgDGhAAAQIDBAUGBwgJCgsMDQ4P > "$files/stream"

sealed=0101020304$(printf '0%.0s' {1..24})0388dace60b6a392f328c2b971b2fe78ab6e47d42cec13bdf53a67b21257bddf
json='{"key":[{"keyData":{"keyMaterialType":"SYMMETRIC","typeUrl":"type.googleapis.com/google.crypto.tink.AesGcmKey","value":"GhAAAAAAAAAAAAAAAAAAAAAA"},"keyId":16909060,"outputPrefixType":"TINK","status":"ENABLED"}],"primaryKeyId":16909060}'
listing='primary_key_id: 16909060
key_info {
  type_url: "type.googleapis.com/google.crypto.tink.AesGcmKey"
  status: ENABLED
  key_id: 16909060
  output_prefix_type: TINK
}'
zero=00000000000000000000000000000000
# session: lines that seal, open and edit. The last keyset has the key of the second line alone.
session() {
    printf '%s\n' "seal $zero -" 'rotate AES128_GCM' "seal $zero -" 'disable 16909060' "open $sealed -" \
        'enable 16909060' "open $sealed -" 'add AES256_SIV' 'delete 16909060' "open $sealed -" hello
}
replies="ok SEALED
ok ID
ok SEALED
ok
no open failed
ok
ok $zero
no key of another primitive
ok
no open failed
no bad line"
bad=0

# shaped HOW: standard input as it is compared: `same` as it is; by its `size`; a keyset by its `listing`, or
# a session's `replies`, whose new ids, and what was sealed, are random.
shaped() {
    case $1 in
    same) od -An -v -tx1 | tr -d ' \n' ;;
    size) wc -c ;;
    listing) "$tinkey" list-keyset --in-format binary | sed 's/_id: .*/_id: ID/' ;;
    replies) sed -E 's/^ok [0-9a-f]{98}$/ok SEALED/; s/^ok [0-9]{1,10}$/ok ID/' ;;
    esac
}

# run_once NUMBER WORD ..: runs the program with this allocation refused. Leaves `code`, the count of bytes
# `left` of the input, and the files out, err, met and new.
run_once() {
    local number=$1
    shift
    rm -rf "$work/new" "$work/run/"*
    cp "$files"/* .
    {
        REFUSED=$number LD_PRELOAD=$work/refuse.so "$tinkey" "$@" > "$work/out" 2> "$work/err" 9> "$work/met"
        code=$?
        left=$(wc -c)
    } < "$work/in"
    [ ! -e n ] || mv n "$work/new"
}

# wrong WHY: this run ended otherwise than it may.
wrong() {
    echo "$name, allocation $number: $1: exit code $code, '$(cat "$work/err")', $(wc -c < "$work/out") bytes"
    bad=1
}

# is_plain: the run ended as one without a refusal.
is_plain() {
    [ "$code" = "$status" ] && [ "$(cat "$work/err")" = "$line" ] || return 1
    [ "$(shaped "$how" < "$work/out")" = "$wanted" ] || return 1
    if [ "$made" = none ]; then [ ! -e "$work/new" ]; else
        [ -e "$work/new" ] && [ "$(shaped "${made%% *}" < "$work/new")" = "${made#* }" ]
    fi
}

# looked: how the run ended, `plain` or `refused`; or why it may not end so.
looked() {
    diff -r "$files" . > "$work/diff" || { echo 'a file has changed'; return; }
    is_plain && { echo plain; return; }
    [ "$code" = 7 ] || { echo 'neither plain nor refused'; return; }
    [ ! -e "$work/new" ] || { echo 'a file was made'; return; }
    case $(cat "$work/err") in 'tinkey: out of memory') ;; *) echo 'another line'; return ;; esac
    if [ "$how" = replies ]; then
        case $wanted in "$(shaped replies < "$work/out")"*) ;; *) echo 'other replies'; return ;; esac
    elif [ -s "$work/out" ]; then
        echo 'output'
        return
    fi
    case $name in *stream*) [ "$left" = "$(wc -c < "$work/in")" ] || { echo 'a byte was taken'; return; } ;; esac
    echo refused
}

# refuse NAME WORD ..: the case of this name, with each allocation refused in turn, until none is. The plain
# run has `status`, `line`, the output `wanted`, shaped by `how`, and the new file `made`: `none`, or how
# it is shaped, and what it is then. Its input is the file in.
refuse() {
    name=$1
    shift
    case " $chosen " in '  ' | *" $name "*) ;; *) return ;; esac
    local number=1 got plain=0 refused=0
    while run_once "$number" "$@"; [ -s "$work/met" ]; do
        got=$(looked)
        case $got in plain) plain=$((plain + 1)) ;; refused) refused=$((refused + 1)) ;; *) wrong "$got" ;; esac
        number=$((number + 1))
    done
    got=$(looked)
    [ "$got" = plain ] || wrong "with none refused: $got"
    echo "$name: $((number - 1)) allocations, of which $refused ended with 7 and $plain as the plain run"
}

# ends HOW WANTED MADE: how the next case's plain run ends, with exit code 0.
ends() { status=0 line='' how=$1 wanted=$2 made=$3; }
# takes: the next case's input.
takes() { cat > "$work/in"; }
# digits FILE: what `same` makes of a file.
digits() { shaped same < "$1"; }
# text STRING: what `same` makes of a text and a newline.
text() { printf '%s\n' "$1" | shaped same; }

chosen="$*"
binary=(--in-format binary --out-format binary)

takes < "$files/gcm"
ends same "$(text "$listing")" none
refuse listing list-keyset --in-format binary
ends same "$(text "$json")" none
refuse to-json convert-keyset --in-format binary
printf '%s\n' "$json" | takes
ends same "$(digits "$files/gcm")" none
refuse from-json convert-keyset --out-format binary

takes < /dev/null
ends same '' "listing $(shaped listing < "$files/gcm")"
refuse create create-keyset --key-template AES128_GCM --out n --out-format binary
ends same '' "listing $(shaped listing < "$files/both")"
refuse add add-key --key-template AES128_GCM --in gcm --out n "${binary[@]}"
refuse rotate rotate-keyset --key-template AES128_GCM --in gcm --out n "${binary[@]}"
ends same '' "same 0809${record}${second}100118092001"
refuse promote promote-key --key-id 9 --in both --out n "${binary[@]}"
ends same '' "same $(digits "$files/both")"
refuse enable enable-key --key-id 9 --in two --out n "${binary[@]}"
ends same '' "same $(digits "$files/two")"
refuse disable disable-key --key-id 9 --in both --out n "${binary[@]}"
ends same '' "same $(digits "$files/gcm")1206100318092001"
refuse destroy destroy-key --key-id 9 --in both --out n "${binary[@]}"
ends same '' "same $(digits "$files/gcm")"
refuse delete delete-key --key-id 9 --in both --out n "${binary[@]}"
ends size 665 none
refuse templates list-key-templates

"$tinkey" wrap-keyset --master "$files/gcm" --master-format binary --in-format binary < "$files/hmac" > "$work/wrapped"
takes < "$files/hmac"
ends size "$(wc -c < "$work/wrapped")" none
refuse wrap wrap-keyset --master gcm --master-format binary --in-format binary
takes < "$work/wrapped"
ends same '' "same $(digits "$files/hmac")"
refuse unwrap unwrap-keyset --master gcm --master-format binary --out n --out-format binary

zeros 16 | takes
ends size 49 none
refuse seal seal --keyset gcm --keyset-format binary
hex "$sealed" | takes
ends same "$(zeros 16 | shaped same)" none
refuse open open --keyset gcm --keyset-format binary
hex "${sealed%??}de" | takes
ends same '' none
status=1 line=$'tinkey: open failed\ntinkey open: sealed under key 16909060, which is ENABLED: other associated data, or the text was changed'
refuse closed open --keyset gcm --keyset-format binary
envelope=0000003301010203040000000000000000000000001998dace60b6a392f328c2b971b2fe78f7956d5be285ef332e80174f60c6e290b102
envelope=${envelope}000000000000000000000000${sealed:34}
zeros 16 | takes
ends size 99 none
refuse envelope eseal --keyset gcm --keyset-format binary --dek-template AES128_GCM
hex "$envelope" | takes
ends same "$(zeros 16 | shaped same)" none
refuse opened-envelope eopen --keyset gcm --keyset-format binary --dek-template AES128_GCM
ends same '' "same $(zeros 16 | shaped same)"
refuse opened-envelope-in-a-file eopen --keyset gcm --keyset-format binary --dek-template AES128_GCM --out n
zeros 16 | takes
ends same '' 'size 49'
refuse sealed-file seal --keyset gcm --keyset-format binary --out n
printf 'Hi There' | takes
ends same 003f691decd01ba02be727b014625c9a8606b032893191be none
refuse dseal dseal --keyset siv --ad-hex 000e
hex 003f691decd01ba02be727b014625c9a8606b032893191be | takes
ends same "$(printf 'Hi There' | shaped same)" none
refuse dopen dopen --keyset siv --ad-hex 000e
hex 003f691decd01ba02be727b014625c9a8606b032893191be | takes
ends same 003f691decd01ba02be727b014625c9a8606b032893191be none
refuse dreseal dreseal --keyset siv --ad-hex 000e
hex "$sealed" | takes
ends size 49 none
refuse reseal reseal --keyset gcm --keyset-format binary
keys='key_id: 16909060 status: ENABLED output_prefix_type: TINK type_url: "type.googleapis.com/google.crypto.tink.AesGcmKey"'
ends same "$(text "$keys"$'\n'"raw_keys: 0")" none
refuse key-of key-of --keyset gcm --keyset-format binary
ends same '' 'size 49'
refuse resealed-file reseal --keyset gcm --keyset-format binary --out n
printf 'Hi There' | takes
ends same b0344c61d8db38535ca8afceaf0bf12b none
refuse tag tag --keyset hmac --keyset-format binary
ends same "$(text b0344c61d8db38535ca8afceaf0bf12b)" none
refuse tag-digits tag --keyset hmac --keyset-format binary --hex
ends same '' "same $(text b0344c61d8db38535ca8afceaf0bf12b)"
refuse tag-digits-in-a-file tag --keyset hmac --keyset-format binary --hex --out n
ends same '' none
refuse verify verify --tag-hex b0344c61d8db38535ca8afceaf0bf12b --keyset hmac --keyset-format binary
ends same b0344c61d8db38535ca8afceaf0bf12b881dc200c9833da726e9376c2e32cff7 none
refuse derive derive --length 32 --keyset prf

zeros 4057 | takes
ends size 4113 none
refuse sealed-stream sseal --keyset stream
"$tinkey" sseal --keyset "$files/stream" < "$work/in" > "$work/sealed"
takes < "$work/sealed"
ends same "$(zeros 4057 | shaped same)" none
refuse opened-stream sopen --keyset stream
ends same '' "same $(zeros 4057 | shaped same)"
refuse opened-stream-in-a-file sopen --keyset stream --out n
ends same '' 'size 4113'
refuse resealed-stream-in-a-file sreseal --keyset stream --out n
keys='key_id: 7 status: ENABLED output_prefix_type: RAW type_url: "type.googleapis.com/google.crypto.tink.AesGcmHkdfStreamingKey"'
ends same "$(text "$keys")" none
refuse key-of-segments key-of --as stream --keyset stream
cp "$work/sealed" "$files/pages"
: | takes
ends same "$(zeros 7 | shaped same)" none
refuse range srange --keyset stream --file pages --from 4050 --length 7
ends same '' "same $(zeros 1 | shaped same)"
refuse range-in-a-file srange --keyset stream --file pages --from 4056 --length 1 --out n

session | takes
ends replies "$replies" "listing $(shaped listing < "$files/gcm")"
refuse session session --keyset gcm --keyset-format binary --out n --out-format binary
session | takes
ends same '' none
status=4 line=$'tinkey: output file exists\ntinkey session: no file is ever replaced: give --out another name'
refuse taken session --keyset gcm --keyset-format binary --out gcm --out-format binary
takes < /dev/null
ends same "$(text 'lines 4 seals 3 opened 0 refused 0 edits 1 declined 0 lost 0')" none
refuse selftest selftest --seed 0 --lines 4

[ "$bad" = 0 ] && echo 'each ended as it may'
exit "$bad"
