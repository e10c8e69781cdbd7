#!/usr/bin/env bash
# Runs captures that other tools made through ./dumpcap, and asks capinfos and tshark about what comes out:
# it has to open, and to have the same packets, times and lengths. A tool that isn't installed is skipped with a line.
# DUMPCAP names another program, and PACKETS says how many packets are joined and watched (1,000,000, of which tshark takes minutes).
# It is run by hand, and needs no rights: no interface is opened.
set -u
top=$(cd "$(dirname "$0")/.." && pwd)
dumpcap=${DUMPCAP:-$top/dumpcap}
sample=$top/samples/ping.pcap
packets=${PACKETS:-1000000}
work=$(mktemp -d)
# What still waits at a FIFO of a part that failed ends with the script.
trap 'kill $(jobs -p) 2>/dev/null; rm -rf "$work"' EXIT
trap 'exit 143' TERM INT
passed=0
failed=0
skipped=0

has() { command -v "$1" >/dev/null; }

skip() {
    echo "skipped: $1"
    skipped=$((skipped + 1))
}

verdict() { # verdict NAME STATUS WHY
    if [ "$2" = 0 ]; then
        echo "ok: $1"
        passed=$((passed + 1))
    else
        echo "FAILED: $1: $3"
        failed=$((failed + 1))
    fi
}

# How many packets capinfos and tshark find in a file. It fails where one of them can't open it, or they differ.
packets_of() { # packets_of FILE
    local numbers count
    numbers=$(tshark -n -r "$1" -T fields -e frame.number 2>/dev/null) || return 1
    count=$(grep -c . <<<"$numbers")
    capinfos -Mc "$1" 2>/dev/null | grep -q "^Number of packets: *$count\$" || return 1
    echo "$count"
}

opens() { # opens FILE PACKETS: both tools open the file, and find so many packets
    local name count
    name="$(basename "$1") opens"
    if ! has capinfos || ! has tshark; then
        skip "$name: capinfos or tshark isn't installed"
        return
    fi
    count=$(packets_of "$1")
    [ "$count" = "$2" ]
    verdict "$name" $? "${count:-no} packets, wanted $2"
}

# Time, captured length, original length, protocols and all bytes of each packet, or of those of a protocol: tshark shows custom
# blocks as packets, too.
facts() { # facts FILE [PROTOCOL]
    tshark -n -r "$1" ${2:+-Y "$2"} -T fields -e frame.time_epoch -e frame.cap_len -e frame.len -e frame.protocols &&
        tshark -n -r "$1" ${2:+-Y "$2"} -x
}

through() { # through NAME FILE WANTED_STATUS WORDS..: captures FILE, with further words
    local out=$work/$1.pcapng status
    "$dumpcap" -i - -w "$out" "${@:4}" <"$2" 2>"$work/$1.report"
    status=$?
    if [ "$status" != "$3" ]; then
        verdict "$1" 1 "exit $status, wanted $3"
        return
    fi
    if has capinfos && ! capinfos -Mc "$out" >"$work/$1.info" 2>&1; then
        verdict "$1" 1 "capinfos can't open it"
        return
    fi
    if ! has tshark; then
        skip "$1: tshark isn't installed, so its packets are not compared"
        return
    fi
    facts "${wanted:-$2}" >"$work/$1.want" 2>/dev/null &&
        facts "$out" >"$work/$1.have" 2>/dev/null &&
        cmp -s "$work/$1.want" "$work/$1.have"
    verdict "$1" $? "the packets differ"
}

through sample "$sample" 0

# The bytes of the file, by the formats alone: through a file, through standard output, and from a FIFO.
exact() { # exact NAME SOURCE_NAME IN OUT
    python3 "$top/interop/expected.py" "$2" "$3" "$4" 2>"$work/$1.why"
    verdict "$1" $? "$(cat "$work/$1.why")"
}
if has python3; then
    exact bytes - "$sample" "$work/sample.pcapng"
    "$dumpcap" -i - -w - <"$sample" >"$work/stdout.pcapng" 2>/dev/null
    exact standard-output - "$sample" "$work/stdout.pcapng"
    mkfifo "$work/fifo"
    cat "$sample" >"$work/fifo" &
    "$dumpcap" -i "$work/fifo" -w "$work/fifo.pcapng" 2>/dev/null
    exact fifo "$work/fifo" "$sample" "$work/fifo.pcapng"
    opens "$work/stdout.pcapng" 6
    opens "$work/fifo.pcapng" 6
else
    skip "python3 isn't installed, so the bytes are not compared"
fi

# What check says of a whole file, and of one without its last byte.
"$dumpcap" check "$work/sample.pcapng" >"$work/check.out" 2>&1 && grep -q '^interfaces 1$' "$work/check.out"
verdict check $? "$(cat "$work/check.out")"
head -c -1 "$work/sample.pcapng" >"$work/torn.pcapng"
"$dumpcap" check "$work/torn.pcapng" >"$work/torn.out" 2>&1
[ $? = 7 ] && grep -q '^fault short at [0-9]*$' "$work/torn.out"
verdict check-torn $? "$(cat "$work/torn.out")"

if has tcpdump; then
    tcpdump -n -r "$sample" -w - 2>/dev/null >"$work/tcpdump.pcap"
    through tcpdump "$work/tcpdump.pcap" 0
    tcpdump -n -r "$sample" --time-stamp-precision=nano -w - 2>/dev/null >"$work/tcpdump-nano.pcap"
    through tcpdump-nano "$work/tcpdump-nano.pcap" 0
else
    skip "tcpdump isn't installed"
fi

if has editcap; then
    editcap -F pcap -s 40 "$sample" "$work/snap.pcap"
    through editcap-snap "$work/snap.pcap" 0
    editcap -F nsecpcap -t 0.000000123 "$sample" "$work/nsec.pcap"
    through editcap-nsec "$work/nsec.pcap" 0
else
    skip "editcap isn't installed"
fi

if has text2pcap; then
    printf '000000 ff ff ff ff ff ff 02 00 00 00 00 01 08 06 00 01\n' >"$work/frame.txt"
    text2pcap -q -F pcap "$work/frame.txt" "$work/text.pcap" 2>/dev/null
    through text2pcap "$work/text.pcap" 0
else
    skip "text2pcap isn't installed"
fi

if has tshark; then
    tshark -n -r "$sample" -F pcap -w "$work/tshark.pcap" 2>/dev/null
    through tshark "$work/tshark.pcap" 0
    # A stream that is cut inside its last packet keeps the packets before it.
    head -c -1 "$sample" >"$work/cut.pcap"
    "$dumpcap" -i - -w "$work/cut.pcapng" <"$work/cut.pcap" 2>"$work/cut.report"
    status=$?
    [ "$status" = 2 ] && grep -q '^source -: cut at [0-9]*$' "$work/cut.report"
    verdict cut $? "exit $status, wanted 2: $(cat "$work/cut.report")"
    opens "$work/cut.pcapng" 5
else
    skip "tshark isn't installed"
fi

# pcapng of either byte order.
if has editcap; then
    editcap -F pcapng "$sample" "$work/little.pcapng"
    through pcapng "$work/little.pcapng" 0
    editcap -F pcapng -s 40 "$sample" "$work/little-snap.pcapng"
    through pcapng-snap "$work/little-snap.pcapng" 0
    # Bodies that the program itself cuts are those that editcap cuts.
    wanted=$work/snap.pcap through snap-length "$sample" 0 -s 40
    wanted=$work/little-snap.pcapng through pcapng-snap-length "$work/little.pcapng" 0 -s 40
else
    skip "editcap isn't installed"
fi
if has python3; then
    python3 "$top/interop/big_endian.py" "$sample" >"$work/big.pcapng"
    wanted=$sample through pcapng-big-endian "$work/big.pcapng" 0
    if has editcap; then
        wanted=$work/snap.pcap through big-endian-snap-length "$work/big.pcapng" 0 -s 40
    fi
fi

# Two sources at once, a classic one and one in pcapng: all packets of both, each under the name of its source.
sources() {
    local count names
    mkfifo "$work/a" "$work/b"
    cat "$sample" >"$work/a" &
    cat "$work/little.pcapng" >"$work/b" &
    "$dumpcap" -i "$work/a" -i "$work/b" -w "$work/both.pcapng" 2>"$work/both.report" || return 1
    count=$(packets_of "$work/both.pcapng") || return 1
    names=$(tshark -n -r "$work/both.pcapng" -T fields -e frame.interface_name 2>/dev/null | sort | uniq -c | awk '{ print $1 }' | xargs)
    [ "$count" = 12 ] && [ "$names" = "6 6" ]
}

# A ring: each file opens, and together they have the packets that are kept.
ring() { # ring NAME WANTED_FILES WANTED_PACKETS WORDS..: from standard input
    local file count packets=0 files=0
    mkdir "$work/$1"
    "$dumpcap" -w "$work/$1/o.pcapng" "${@:4}" 2>"$work/$1.report" || return 1
    for file in "$work/$1"/o_*.pcapng; do
        count=$(packets_of "$file") || return 1
        "$dumpcap" check "$file" >/dev/null 2>&1 || return 1
        packets=$((packets + count))
        files=$((files + 1))
    done
    [ "$files" = "$2" ] && [ "$packets" = "$3" ]
}

# Three sources, classic and pcapng of both byte orders, cut to 40 bytes, into several files: of each source all packets, no longer one.
all_at_once() {
    local file lengths names
    mkfifo "$work/c" "$work/l" "$work/g"
    cat "$sample" >"$work/c" &
    cat "$work/little.pcapng" >"$work/l" &
    cat "$work/big.pcapng" >"$work/g" &
    ring all 5 18 -i "$work/c" -i "$work/l" -i "$work/g" -s 40 -b packets:4 </dev/null || return 1
    for file in "$work/all"/o_*.pcapng; do
        tshark -n -r "$file" -T fields -e frame.interface_name -e frame.cap_len 2>/dev/null
    done >"$work/all.packets"
    names=$(cut -f 1 "$work/all.packets" | sort | uniq -c | awk '{ print $1 }' | xargs)
    lengths=$(cut -f 2 "$work/all.packets" | sort -n | tail -n 1)
    [ "$names" = "6 6 6" ] && [ "$lengths" = 40 ]
}

if has tshark && has capinfos && has editcap; then
    sources
    verdict two-sources $? "$(cat "$work/both.report")"
    # The sample has six packets: a file that is full at its second one is followed by another.
    ring files 4 6 -i - -b packets:2 <"$sample"
    verdict files $? "$(ls "$work/files" 2>&1)"
    ring ring 2 2 -i - -b packets:2 -b files:2 <"$sample"
    verdict ring $? "$(ls "$work/ring" 2>&1)"
    "$dumpcap" -i - -w "$work/first.pcapng" -c 3 <"$sample" 2>/dev/null
    opens "$work/first.pcapng" 3
    if has python3; then
        all_at_once
        verdict sources-files-snap-length $? "$(cat "$work/all.report")"
    fi
else
    skip "tshark, capinfos or editcap isn't installed"
fi

# Messages, and a follower of them.
"$dumpcap" -i - -w "$work/told.pcapng" --sync <"$sample" 2>"$work/messages"
"$dumpcap" follow "$work/messages" >"$work/lines" 2>&1
status=$?
[ "$status" = 0 ] && [ "$(grep -c '^packet ' "$work/lines")" = 6 ] && grep -q "^file $work/told.pcapng\$" "$work/lines"
verdict follow $? "exit $status: $(tail -n 1 "$work/lines")"
opens "$work/told.pcapng" 6

# What pass copies: the packets, and byte for byte and in place the blocks of names, secrets and custom blocks.
passes() { # passes NAME IN BLOCKS: so many blocks are passed on; and tshark finds the packets of IN
    local out=$work/$1-passed.pcapng count=none
    "$dumpcap" pass "$2" "$out" >"$work/$1.lines" 2>&1 &&
        count=$(python3 "$top/interop/passed.py" "$2" "$out" 2>"$work/$1.why") &&
        [ "$count" = "$3" ] && grep -q "^passed $3\$" "$work/$1.lines" &&
        facts "$2" eth >"$work/$1.want" 2>/dev/null && facts "$out" eth >"$work/$1.have" 2>/dev/null && cmp -s "$work/$1.want" "$work/$1.have"
    verdict "$1" $? "$count blocks passed on, wanted $3: $(cat "$work/$1.lines" "$work/$1.why" 2>/dev/null | xargs)"
}

# What tshark reads of the session in a file: the name that the client asked for.
asked_in() {
    tshark -n -r "$1" -Y http.request -T fields -e http.request.uri 2>/dev/null
}

if has tshark && has python3; then
    python3 "$top/interop/passed.py" --make "$work/blocks.pcapng"
    passes blocks "$work/blocks.pcapng" 6
    if has editcap && has openssl; then
        # A session that tshark can read with its keys alone, which editcap puts into the file, has to be read from the copy too.
        python3 "$top/interop/secrets.py" "$work"
        editcap --inject-secrets "tls,$work/tls.keys" "$work/tls.pcap" "$work/secrets.pcapng"
        passes secrets "$work/secrets.pcapng" 1
        [ -z "$(asked_in "$work/tls.pcap")" ] && [ "$(asked_in "$work/secrets-passed.pcapng")" = /in-the-clear-only-with-keys ]
        verdict secrets-are-used $? "without them $(asked_in "$work/tls.pcap"), with them $(asked_in "$work/secrets-passed.pcapng")"
        # A capture doesn't have them.
        "$dumpcap" -i "$work/secrets.pcapng" -w "$work/no-secrets.pcapng" 2>/dev/null && [ -z "$(asked_in "$work/no-secrets.pcapng")" ]
        verdict capture-drops-secrets $? "$(asked_in "$work/no-secrets.pcapng")"
    else
        skip "editcap or openssl isn't installed, so no secrets are passed on"
    fi
else
    skip "tshark or python3 isn't installed, so nothing is passed on"
fi

# Words whose output is one of their inputs are refused, and leave it as it is.
kept() { # kept NAME WORDS..: the words name the file kept.pcapng as an output and an input
    local status
    cp "$work/sample.pcapng" "$work/kept.pcapng"
    (cd "$work" && "$dumpcap" "${@:2}") >"$work/kept.out" 2>&1
    status=$?
    [ "$status" = 1 ] && [ "$(cat "$work/kept.out")" = "dumpcap: conflicting words" ] && cmp -s "$work/sample.pcapng" "$work/kept.pcapng"
    verdict "$1" $? "exit $status: $(head -n 1 "$work/kept.out")"
}
kept capture-into-its-source -i kept.pcapng -w kept.pcapng
kept pass-into-its-source pass kept.pcapng kept.pcapng
kept join-into-an-input join kept.pcapng sample.pcapng kept.pcapng

# Two streams of the generator, in all so many packets.
has_streams=
streams() {
    [ -n "$has_streams" ] || { "$dumpcap" make 7 2 "$packets" "$work/stream" >"$work/streams.lines" 2>&1 && has_streams=1; }
}

# The counts of statistics that check finds in a file, a line for each interface.
counts_in() {
    "$dumpcap" check "$1" | sed -n 's/^interface \([0-9]*\) packets [0-9]* /\1 /p'
}

# How many packets capinfos finds in files together.
sum_of() {
    local file sum=0 count
    for file; do
        count=$(capinfos -Mc "$file" 2>/dev/null | sed -n 's/^Number of packets: *//p')
        [ -n "$count" ] || return 1
        sum=$((sum + count))
    done
    echo "$sum"
}

# Time, lengths and interface of each packet.
heads() {
    tshark -n -r "$1" -T fields -e frame.time_epoch -e frame.cap_len -e frame.len -e frame.interface_name
}

# A ring of a hundred files, joined: as many packets as the files have together, those that mergecap finds, in the same order; a whole
# output file, with the statistics of the last file.
joining() {
    local files last
    mkdir "$work/joins"
    streams || return 1
    "$dumpcap" -i "$work/stream0" -i "$work/stream1" -w "$work/joins/o.pcapng" -b "packets:$((packets / 100))" 2>/dev/null || return 1
    files=("$work/joins"/o_*.pcapng)
    last=${files[${#files[@]} - 1]}
    "$dumpcap" join "$work/joined.pcapng" "${files[@]}" >"$work/join.lines" || return 1
    [ "$(cat "$work/join.lines")" = "files ${#files[@]}"$'\n'"packets $packets" ] || return 1
    [ "$(sum_of "${files[@]}")" = "$packets" ] && [ "$(sum_of "$work/joined.pcapng")" = "$packets" ] || return 1
    [ -n "$(counts_in "$last")" ] && [ "$(counts_in "$last")" = "$(counts_in "$work/joined.pcapng")" ] || return 1
    mergecap -a -w "$work/merged.pcapng" "${files[@]}" || return 1
    heads "$work/merged.pcapng" >"$work/join.want" 2>/dev/null && heads "$work/joined.pcapng" >"$work/join.have" 2>/dev/null || return 1
    [ "$(wc -l <"$work/join.have")" = "$packets" ] && cmp -s "$work/join.want" "$work/join.have"
}

# One file of a ring is joined into itself. Of files whose descriptions differ, and of a torn one, the first such is told.
joining_few() {
    cp "$work/joins/o_00001_"*.pcapng "$work/one.pcapng"
    "$dumpcap" join "$work/itself.pcapng" "$work/one.pcapng" >/dev/null && cmp -s "$work/one.pcapng" "$work/itself.pcapng" || return 1
    "$dumpcap" join "$work/none.pcapng" "$work/sample.pcapng" "$work/one.pcapng" >"$work/differ.lines"
    [ $? = 9 ] && [ "$(cat "$work/differ.lines")" = "fault differ at description 0 in $work/one.pcapng" ] || return 1
    "$dumpcap" join "$work/none.pcapng" "$work/torn.pcapng" "$work/one.pcapng" >"$work/torn.lines"
    [ $? = 7 ] && grep -q "^fault short at [0-9]* in $work/torn.pcapng\$" "$work/torn.lines"
}

# A capture of two FIFOs into several files, whose messages eight readers watch beside it: the totals are what stands in the files.
watching() {
    local files last dropped wanted
    mkdir "$work/watches"
    streams || return 1
    mkfifo "$work/watches/0" "$work/watches/1" "$work/watches/messages"
    cat "$work/stream0" >"$work/watches/0" &
    cat "$work/stream1" >"$work/watches/1" &
    "$dumpcap" watch "$work/watches/messages" 8 >"$work/watch.lines" &
    local watcher=$!
    "$dumpcap" -i "$work/watches/0" -i "$work/watches/1" -w "$work/watches/o.pcapng" -b "packets:$((packets / 4))" --sync 2>"$work/watches/messages" || return 1
    wait "$watcher" || return 1
    files=("$work/watches"/o_*.pcapng)
    last=${files[${#files[@]} - 1]}
    dropped=$(counts_in "$last" | awk '{ sum += $5 } END { print sum + 0 }')
    wanted="files ${#files[@]}"$'\n'"packets $(sum_of "${files[@]}")"$'\n'"drops $dropped"$'\n'"readers 8"
    [ "$(cat "$work/watch.lines")" = "$wanted" ]
}

if has capinfos && has tshark && has mergecap; then
    joining
    verdict join $? "$(head -n 3 "$work/join.lines" 2>&1 | xargs)"
    joining_few
    verdict join-few $? "$(head -n 1 "$work/differ.lines" 2>&1)"
    rm -rf "$work/joins" "$work/joined.pcapng" "$work/merged.pcapng" "$work"/join.want "$work"/join.have
    watching
    verdict watch $? "$(xargs <"$work/watch.lines" 2>&1)"
else
    skip "capinfos, tshark or mergecap isn't installed, so nothing is joined or watched"
fi

echo "$passed passed, $failed failed, $skipped skipped"
[ "$failed" = 0 ]
