# 01's handbook examples that are run and not proved, that of the flags as 02 has it (M-101), what 02 says of missing bits (M-102), of enhanced
# full rate (M-103), of the identity that a burst names (M-105), of bursts lost by class (M-108), of marks (M-111), of the hub (M-112) and of frames (M-113), and what the table of refusals says of a lent buffer, as kit lines:
# LINE => ANSWER, the answers typed from the papers. Sourced, by POSIX sh.

sevens() { zeros "$1" | tr 0 7; } # COUNT

# So many bits, of which those at the places are 1; the first place is 0.
ones_at() { # COUNT PLACE...
    awk 'BEGIN {
        for (i = 2; i < ARGC; i++) is_one[ARGV[i]] = 1
        for (k = 0; k < ARGV[1]; k++) printf "%d", (k in is_one) ? 1 : 0
    }' "$@"
}

handbook() {
    say "speech? $(zeros 456) => refused 8 0"
    say "control? $(zeros 456) => refused 8 0"
    # 36 zeros are the request of identity 63 for eight zeros, and of no other
    identity=0
    while [ "$identity" -le 62 ]; do
        say "access? $identity $(zeros 36) => refused 8 0"
        identity=$((identity + 1))
    done
    say "access? 63 $(zeros 36) => 0 $(zeros 8)"
    # with bits 0, 1, 3, 6 set, u(0) = 1 and the rest 0 is three bits away, nearer than the zeros
    say "access? 63 1101001$(zeros 29) => refused 8 3"
    say "access 63 $(zeros 8) => $(zeros 36)"
    say "access 64 $(zeros 8) => refused 3"
    say "access? 64 $(zeros 36) => refused 3"
}

# Where all bits are missing nothing disagrees, and of all candidates the zeros are taken; their parity is good for access under 63 alone.
all_missing() {
    for words in 'speech? 456' 'control? 456' 'sacch? 464' 'sch? 78'; do say "${words% *} $(twos "${words#* }") => refused 8 0"; done
    say "access? 63 $(twos 36) => 0 $(zeros 8)"
    for identity in 0 1 7 12 31 32 62; do say "access? $identity $(twos 36) => refused 8 0"; done
    # after four pairs every state is reached, and without a disagreement
    say "trellis $(twos 8) =>$(printf ' 0%.0s' 1 2 3 4 5 6 7 8 9 10 11 12 13 14 15 16)"
    # a whole block of a stream: no vote, a tie, and both parities bad
    for burst in 0 1 2 3 4 5 6; do say "take $burst $(twos 116) => waiting"; done
    say "take 7 $(twos 116) => refused 9 0"
    say "totals => 0 0 1 0"
    say "fresh => fresh"
}

# A missing bit is not counted, and 2 is one where bits are received alone; of the pair 1, 1 one bit is missing.
some_missing() {
    say "access? 63 11$(twos 1)1001$(zeros 29) => refused 8 3"
    say "access? 63 $(twos 2)0$(twos 1)00$(twos 1)$(zeros 29) => 0 $(zeros 8)"
    say "trellis 12 => 1 65535 65535 65535 65535 65535 65535 65535 0 65535 65535 65535 65535 65535 65535 65535"
    say "trellis 13 => refused 2"
    say "access 63 $(zeros 7)2 => refused 2"
    say "access? 63 $(zeros 35)2 => 0 $(zeros 8)"
    say "access? 63 $(zeros 35)3 => refused 2"
    say "access? 64 $(zeros 35)2 => refused 3"
    for words in 'speech 260' 'control 184' 'sacch 184' 'sch 25' 'send 260' 'send 184'; do
        say "${words% *} $(zeros $((${words#* } - 1)))2 => refused 2"
    done
    for words in 'speech? 456' 'control? 456' 'sacch? 464' 'sch? 78' 'take 0 116'; do
        say "${words% *} $(zeros $((${words##* } - 1)))3 => refused 2"
    done
    # a flag of four bursts may be missing
    say "sacch? $(zeros 57)$(twos 2)$(zeros 405) => refused 8 0"
    say "sacch? $(zeros 57)3$(zeros 406) => refused 2"
}

# A call that is done writes every byte, a refusal leaves all as before; a buffer of another length comes before the others.
lent_buffers() {
    say "lend 36 7 access 63 $(zeros 8) => done $(zeros 36)"
    say "lend 35 7 access 63 $(zeros 8) => refused 1 $(sevens 35)"
    say "lend 37 7 access 64 2 => refused 1 $(sevens 37)"
    say "lend 36 7 access 64 2$(zeros 7) => refused 2 $(sevens 36)"
    say "lend 36 7 access 64 $(zeros 8) => refused 3 $(sevens 36)"
    say "lend 8 7 access? 63 $(zeros 36) => 0 $(zeros 8)"
    say "lend 8 7 access? 62 $(zeros 36) => refused 8 0 $(sevens 8)"
    say "lend 184 7 control? $(zeros 456) => refused 8 0 $(sevens 184)"
    say "lend 8 7 access? 63 $(twos 36) => 0 $(zeros 8)"
    say "lend 8 7 access? 63 $(zeros 35)3 => refused 2 $(sevens 8)"
    say "lend 260 7 speech? $(twos 456) => refused 8 0 $(sevens 260)"
    # End with no block sent, and bursts of a stream
    say "lend 0 7 end => refused 1 -"
    say "lend 464 7 end => refused 6 $(sevens 464)"
    say "lend 261 7 take 0 $(zeros 116) => refused 1 $(sevens 261)"
    say "lend 260 7 take 1 $(zeros 116) => refused 4 $(sevens 260)"
    say "lend 260 7 take 0 $(zeros 116) => waiting $(sevens 260)"
    # a block of zeros with four flags that are 1
    for burst in 1 2 3; do say "lend 260 7 take $burst $(zeros 58)1$(zeros 57) => waiting $(sevens 260)"; done
    say "lend 260 7 take 4 $(zeros 57)1$(zeros 58) => waiting $(sevens 260)"
    for burst in 5 6; do say "lend 260 7 take $burst $(zeros 116) => waiting $(sevens 260)"; done
    say "lend 260 7 take 7 $(zeros 116) => refused 9 0 $(sevens 260)"
    say "lend 260 7 take 8 $(zeros 116) => waiting $(sevens 260)"
    say "lend 600 7 fresh => ?"
}

# Enhanced full rate: 244 zeros have a CRC of zeros, and are sent as speech of zeros is, with the parity 111 in u(91), u(92), u(93). The pairs of
# u(25), which is d(50), w(1) and s(1), make the CRC bad and leave the parity.
efr_lines() {
    parity='182 183 184 186 188 194 195'
    pairs='50 51 53 56 57 58 59'
    say "efr $(zeros 244) => $(ones_at 456 $parity)"
    say "efr? $(ones_at 456 $parity) => 0 $(zeros 244)"
    say "efr? $(ones_at 456 $pairs $parity) => refused 10 0"
    say "speech? $(ones_at 456 $pairs $parity) => 0 $(ones_at 260 50)"
    # with four of the seven ones that block is three bits away, nearer than the zeros; with three the zeros are
    say "efr? $(ones_at 456 56 57 58 59 $parity) => refused 10 3"
    say "efr? $(ones_at 456 50 51 53 $parity) => 3 $(zeros 244)"
    # with a bad parity the CRC is not asked
    for bits in "$(zeros 456)" "$(twos 456)" "$(ones_at 456 $pairs)"; do say "efr? $bits => refused 8 0"; done
    # c(378), c(379), c(380) are w(70), w(72), w(73), and s(70) is read from the first of them
    say "efr? $(ones_at 456 $parity 378) => 0 $(ones_at 244 69)"
    say "efr? $(ones_at 456 $parity 379 380) => 0 $(zeros 244)"
    say "efr? $(ones_at 456 $parity | sed 's/0\{78\}$//')$(twos 78) => 0 $(zeros 244)"
    for bits in '' 2 "$(zeros 243)" "$(zeros 245)" "$(zeros 260)"; do say "efr $bits => refused 1"; done
    for bits in '' 3 "$(zeros 244)" "$(zeros 455)" "$(zeros 457)"; do say "efr? $bits => refused 1"; done
    say "efr $(zeros 243)2 => refused 2"
    say "efr? $(zeros 455)3 => refused 2"
    say "lend 456 7 efr $(zeros 244) => done $(ones_at 456 $parity)"
    say "lend 244 7 efr? $(ones_at 456 $parity) => 0 $(zeros 244)"
    say "lend 244 7 efr? $(ones_at 456 $pairs $parity) => refused 10 0 $(sevens 244)"
    say "lend 244 7 efr? $(zeros 456) => refused 8 0 $(sevens 244)"
    say "lend 260 7 efr? $(ones_at 456 $pairs $parity) => refused 1 $(sevens 260)"
    say "send $(zeros 244) => refused 1"
}

# Whose a burst was: the colour bits u(8)..u(13) of the nearest block, and added to them the parity of its bits u(0)..u(7), are the identity, its
# highest bit first. 000, 4.6: those eight bits and their parity, divided by D^6+D^5+D^3+D^2+D+1, leave all ones.
whose_lines() {
    # the nearest block is all 0: the parity is 111111, the colour bits are 000000
    for bits in "$(zeros 36)" "$(twos 36)"; do say "whose $bits => 63 0"; done
    # The nearest block has u(0) = 1 and the rest 0. D^7 leaves D^5+D^4+1 and D^8 leaves D^3+D^2+1, so that D^13 = D^5 D^8 leaves what D^8+D^7+D^5
    # does: D^4+D^3+D^2, which is 011100. The parity makes it all ones: it is 100011, and with the colour bits 000000 that is 35.
    four_set=1101001$(zeros 29)
    say "whose $four_set => 35 3"
    say "access? 35 $four_set => 3 1$(zeros 7)"
    for identity in 0 34 49 63; do say "access? $identity $four_set => refused 8 3"; done
    # the burst of identity 7 for 01101001; its third bit, its eighteenth and its thirty-first altered; the burst of identity 0 for eight zeros
    say "access 7 01101001 => 001110010001110010001100010011110000"
    say "whose 001110010001110010001100010011110000 => 7 0"
    say "whose 000110010001110011001100010011010000 => 7 3"
    say "whose 000000000000000011101001101001000011 => 0 0"
    for bits in '' 3 "$(zeros 35)" "$(zeros 37)" "$(zeros 34)3"; do say "whose $bits => refused 1"; done
    say "whose $(zeros 35)3 => refused 2"
    # it writes nothing, and is lent nothing
    for bits in "$(zeros 36)" "$(zeros 35)" "$(zeros 35)3"; do say "lend 8 7 whose $bits => ?"; done
    say "whose => ?"
}

# Marks. A block with u(k) = 1 and the rest 0 has ones at seven places: c(2k), c(2k+1), c(2k+3), c(2k+6), c(2k+7), c(2k+8), c(2k+9). Two blocks differ in seven or more.
mark_lines() {
    one=1$(zeros 17)
    # with four of its seven ones it is three away and the zeros are four
    four_set=1101001$(zeros 29)
    say "mark access $four_set $one 3 => yes"
    for count in 0 2 4 7 65535; do say "mark access $four_set $one $count => no count"; done
    say "mark access $four_set $(zeros 18) 4 => no fewest"
    say "mark access $four_set $(zeros 18) 3 => no count"
    # Three of the seven places are missing and two are 1, so that it and the zeros are both two away. Of the seven or more places in which a third block differs from
    # the zeros at least four came, and at most two of those are 1: it is two away or more.
    tied=2202001100$(zeros 26)
    for block in "$one" "$(zeros 18)"; do
        say "mark access $tied $block 2 => yes"
        for count in 1 3; do say "mark access $tied $block $count => no count"; done
    done
    # where all is missing nothing disagrees
    for words in 'speech 456 189' 'control 456 228' 'access 36 18' 'sch 78 39'; do
        bits=${words#* }
        received=${bits% *}
        block=${bits#* }
        channel=${words%% *}
        say "mark $channel $(zeros "$received") $(zeros "$block") 0 => yes"
        say "mark $channel $(zeros "$received") $(zeros "$block") 1 => no count"
        say "mark $channel $(twos "$received") $(zeros $((block - 4)) | tr 0 1)$(zeros 4) 0 => yes"
        say "mark $channel $(twos "$received") $(zeros $((block - 4)) | tr 0 1)$(zeros 4) $received => no count"
        # the last four bits, and the one before them, whose seven ones all come
        for place in 1 2 3 4; do say "mark $channel $(zeros "$received") $(ones_at "$block" $((block - place))) 7 => no tail"; done
        say "mark $channel $(zeros "$received") $(ones_at "$block" $((block - 5))) 7 => no fewest"
        # a wrong length of the block is no refusal; a wrong one of what was received is, and comes first
        for length in 1 4 $((block - 1)) $((block + 1)) 300; do say "mark $channel $(zeros "$received") $(zeros $length) 0 => no length"; done
        say "mark $channel $(zeros "$received")  0 => no length"
        for length in 1 $((received - 1)) $((received + 1)); do say "mark $channel $(zeros $length) 2 9 => refused 1"; done
        say "mark $channel  2 9 => refused 1"
        say "mark $channel $(zeros $((received - 1)))3 $(zeros "$block") 0 => refused 2"
        say "mark $channel $(zeros "$received") $(zeros $((block - 1)))2 0 => refused 2"
        say "mark $channel $(zeros "$received") 2 0 => refused 2"
    done
    # of speech the first 378 count, and the last of them does
    say "mark speech $(zeros 378)$(zeros 78 | tr 0 1) $(zeros 189) 0 => yes"
    say "mark speech $(zeros 377)1$(zeros 78) $(zeros 189) 1 => yes"
    say "mark control $(zeros 455)1 $(zeros 228) 1 => yes"
    for channel in sacch efr access? Access; do say "mark $channel $(zeros 36) $(zeros 18) 0 => ?"; done
    for count in 65536 000000 -1 x; do say "mark access $(zeros 36) $(zeros 18) $count => ?"; done
    # it writes nothing, and is lent nothing
    say "lend 8 7 mark access $(zeros 36) $(zeros 18) 0 => ?"
}

# The burst of an identity for eight zeros. Their parity is 111111, so that the colour bits u(8)..u(13) are those of the identity turned over, its highest bit first.
of_zeros() { # IDENTITY
    awk -v identity="$1" 'BEGIN {
        for (k = 8; k <= 13; k++) u[k] = 1 - int(identity / 2 ^ (13 - k)) % 2
        for (k = 0; k <= 17; k++) printf "%d%d", (u[k] + u[k - 3] + u[k - 4]) % 2, (u[k] + u[k - 1] + u[k - 3] + u[k - 4]) % 2
    }'
}

# The hub. 36 zeros are for identity 63, and so is what is all missing; with bits 0, 1, 3, 6 set they are for 35 (whose_lines). An altered bit weighs twice as much as a missing
# one, and a weight of six is borne.
hub_lines() {
    say "fresh => fresh"
    four_set=1101001$(zeros 29)
    # identity 7 for 01101001
    of_seven=001110010001110010001100010011110000
    # no one is there; what has a wrong length or wrong bytes is refused for that
    for bits in "$(zeros 36)" "$(twos 36)" "$of_seven"; do say "hear $bits => refused 17"; done
    for bits in '' "$(zeros 35)" "$(zeros 37)" "$(zeros 34)3"; do say "hear $bits => refused 1"; done
    say "hear $(zeros 35)3 => refused 2"
    for place in 0 29 30 65535; do say "remove $place => refused 16"; done
    for identity in 64 65535; do say "enrol $identity => refused 3"; done
    say "enrol 12 => 0"
    say "enrol 63 => 1"
    for bits in "$(zeros 36)" "$(twos 36)" "$(twos 6)$(zeros 30)"; do say "hear $bits => 1 0 $(zeros 8)"; done
    say "hear 1$(twos 4)$(zeros 31) => 1 1 $(zeros 8)"
    say "hear 111$(zeros 33) => 1 3 $(zeros 8)"
    say "hear $four_set => refused 17"
    say "enrol 35 => 2"
    say "hear $four_set => 2 3 1$(zeros 7)"
    say "enrol 7 => 3"
    say "hear $of_seven => 3 0 01101001"
    # its third bit, its eighteenth and its thirty-first altered; six missing; one altered and four missing, two and two
    say "hear 000110010001110011001100010011010000 => 3 3 01101001"
    say "hear $(twos 6)${of_seven#??????} => 3 0 01101001"
    say "hear 1$(twos 4)${of_seven#?????} => 3 1 01101001"
    say "hear 11$(twos 2)${of_seven#????} => 3 2 01101001"
    for identity in 7 00063; do say "enrol $identity => refused 14"; done
    # who is removed is heard no more, and the others are
    say "remove 1 => removed"
    for bits in "$(zeros 36)" "$(twos 36)"; do say "hear $bits => refused 17"; done
    say "remove 1 => refused 16"
    say "hear $of_seven => 3 0 01101001"
    # of the freed places the smallest is used first, and who comes back is heard there
    for place in 3 0; do say "remove $place => removed"; done
    say "enrol 63 => 0"
    say "hear $(zeros 36) => 0 0 $(zeros 8)"
    say "hear $of_seven => refused 17"
    say "enrol 12 => 1"
    say "enrol 7 => 3"
    say "hear $of_seven => 3 0 01101001"
    say "enrol 0 => 4"
    say "hear 000000000000000011101001101001000011 => 4 0 $(zeros 8)"
    say "fresh => fresh"
    say "hear $(zeros 36) => refused 17"
    say "remove 0 => refused 16"
    # thirty come, and then there is no place; who stands there is refused for that, and over 63 for that, though the lowest bits of 127 and of 319 are those of 63
    identity=63
    while [ "$identity" -ge 34 ]; do
        say "enrol $identity => $((63 - identity))"
        identity=$((identity - 1))
    done
    for identity in 33 7 0; do say "enrol $identity => refused 15"; done
    for identity in 63 34; do say "enrol $identity => refused 14"; done
    for identity in 64 127 319; do say "enrol $identity => refused 3"; done
    for identity in 63 62 48 34; do say "hear $(of_zeros $identity) => $((63 - identity)) 0 $(zeros 8)"; done
    for identity in 33 0; do say "hear $(of_zeros $identity) => refused 17"; done
    for place in 29 17; do say "remove $place => removed"; done
    for place in 30 256; do say "remove $place => refused 16"; done
    say "enrol 63 => refused 14"
    say "enrol 7 => 17"
    say "enrol 33 => 29"
    say "enrol 0 => refused 15"
    say "hear $of_seven => 17 0 01101001"
    say "hear $(of_zeros 33) => 29 0 $(zeros 8)"
    for identity in 34 46; do say "hear $(of_zeros $identity) => refused 17"; done
    # 8 bytes are lent, and a refusal leaves them
    say "lend 8 7 hear $(zeros 36) => 0 0 $(zeros 8)"
    say "lend 8 7 hear $(of_zeros 34) => refused 17 $(sevens 8)"
    for bits in "$(zeros 36)" "$(zeros 35)3"; do say "lend 9 7 hear $bits => refused 1 $(sevens 9)"; done
    say "lend 0 7 hear $(zeros 36) => refused 1 -"
    say "lend 8 7 hear $(zeros 35)3 => refused 2 $(sevens 8)"
    say "lend 8 7 hear  => refused 1 $(sevens 8)"
    # enrol and remove write nothing, and are lent nothing; what is not understood leaves the hub
    for line in 'enrol 5' 'remove 0'; do say "lend 8 7 $line => ?"; done
    for line in 'enrol' 'enrol ' 'enrol 5 5' 'enrol x' 'enrol 65536' 'remove' 'remove 0 0' 'remove x' 'remove 65536' 'hear' "hear 63 $(zeros 36)"; do say "$line => ?"; done
    say "hear $(zeros 36) => 0 0 $(zeros 8)"
    say "remove 0 => removed"
    say "hear $(zeros 36) => refused 17"
    say "why 14 => the identity stands at a place of the hub already"
    say "why 15 => all 30 places of the hub are in use"
    say "why 16 => the place is empty, or over 29"
    say "why 17 => no identity at the hub accepts the burst"
    for number in 11 12 13; do say "why $number => ?"; done
    say "fresh => fresh"
}

# The frame of the uplink whose other control bits and whose speech are zeros, but for octets that are said: octet 2 is a fixed 1 and C1..C7, octet 39 is C18..C21 and T1..T4.
octets() { # [NUMBER DIGITS]...
    awk 'BEGIN {
        for (k = 0; k < 40; k++) octet[k] = k > 1 && k % 2 == 0 ? "80" : "00"
        octet[2] = "88"
        octet[39] = "0f"
        for (i = 1; i < ARGC; i += 2) octet[ARGV[i]] = ARGV[i + 1]
        for (k = 0; k < 40; k++) printf "%s", octet[k]
    }' "$@"
}

# Frames. Parameters 1 to 8 end at D6, D12, D17, D22, D26, D30, D33 and D36, and the four sub-frames begin at D37, D93, D149 and D205, each of them with the lag; the block amplitude comes
# 11 bits behind that, the first pulse 17. The bit 0 of a parameter comes first.
frame_lines() {
    up=00010$(zeros 16)
    down=11100$(zeros 16)
    say "frame $up $(zeros 260) => $(octets)"
    say "frame? $(octets) => $up $(zeros 260)"
    say "frame $down $(zeros 260) => $(octets 2 f0)"
    say "frame? $(octets 2 f0) => $down $(zeros 260)"
    # d(k), the octet and its digits: d(0) is bit 5 of parameter 1, D6; d(1), d(3), d(4) are bit 5 of 12, 46, 63, D53, D165, D221; d(8) is bit 3 of 1, D4; d(14) is bit 6 of 43, D155;
    # d(18) is bit 4 of 46, D164; d(31) is bit 3 of 9, D40
    first='0 4 82,1 11 80,3 25 01,4 33 10,8 4 88,14 24 84,18 25 02,31 9 20'
    # d(49) is bit 1 of 60, D206; d(50) is bit 2 of 5, D25; d(65), d(66), d(67), d(68) are bit 2 of 2, 3, 8, 4, D9, D15, D36, D20; d(131) is bit 0 of 11, D46
    next='49 31 10,50 7 20,65 5 40,66 5 01,67 8 82,68 6 84,131 10 c0'
    # d(178), d(181), d(182) are bit 1 of 64, 67, 68, D223, D232, D235; d(197), d(198) are bit 0 of 8, 3, D34, D13; d(245), d(249), d(257) are bit 0 of 64, 68, 76, D222, D234, D258;
    # d(258), d(259) are bit 0 of 2, 6, D7, D27
    last='178 33 04,181 34 81,182 35 20,197 8 88,198 5 04,245 33 08,249 35 40,257 38 90,258 4 81,259 7 08'
    say "$first,$next,$last" | tr ',' '\n' | while read -r place octet digits; do
        say "frame $up $(ones_at 260 "$place") => $(octets "$octet" "$digits")"
        say "frame? $(octets "$octet" "$digits") => $up $(ones_at 260 "$place")"
    done
    # C7, C8, C15, C16, C17, C18 and C21
    for words in '6 2 89' '7 3 80' '14 3 01' '15 38 82' '16 38 81' '17 39 8f' '20 39 1f'; do
        octet=${words#* }
        say "frame $(ones_at 21 3 "${words%% *}") $(zeros 260) => $(octets "${octet% *}" "${octet#* }")"
    done
    # all 50 bits under the parity check: of parameters 1, 2, 3, 4 the highest 4, 3, 2, 2 bits, of 5, 6, 7 the highest, of each lag all but bit 0, of each block amplitude the highest three
    checked=$(zeros 50 | tr 0 1)$(zeros 210)
    frame=0000f16a9e38e31190fc8380800080008fc0b80080008001fc0780008000801fc0708000800082df
    say "frame 111000101101010101101 $checked => $frame"
    say "frame? $frame => 111000101101010101101 $checked"
    # all 78 unprotected bits: of parameters 1 to 8 the lowest 1, 2, 2, 2, 1, 2, 1, 2 bits, of each block amplitude and of each pulse bit 0, of the last nine pulses bit 1 too
    unprotected=$(zeros 182)$(zeros 78 | tr 0 1)
    frame=00008800c186988ccc0090499249924980028492a492a4908020c924c924c9008209926ddb6dd80f
    say "frame $up $unprotected => $frame"
    say "frame? $frame => $up $unprotected"
    # T1..T4 may be anything
    for digit in 0 1 8 a; do say "frame? $(octets 39 "3$digit") => 00010$(zeros 14)11 $(zeros 260)"; done
    # one of the 35 bits is wrong
    for words in '0 80' '0 01' '1 80' '1 01' '2 08' '4 00' '20 00' '36 00' '38 00'; do say "frame? $(octets "${words% *}" "${words#* }") => refused 18"; done
    # and the type is, which is asked behind them
    for words in '0 80' '1 01' '38 00'; do say "frame? $(octets 2 80 "${words% *}" "${words#* }") => refused 18"; done
    for digit in 0 f; do say "frame? $(zeros 80 | tr 0 $digit) => refused 18"; done
    # C1..C5 are 00000, 00011, 01000, 00111, 11111, and 11010 of enhanced full rate
    for digits in 80 8c a0 9c fc e8; do say "frame? $(octets 2 $digits) => refused 19"; done
    for bits in 00000 00011 01000 00111 11111 11010; do
        say "frame $bits$(zeros 16) $(zeros 260) => refused 19"
        # what is no bit comes before it, and a wrong length before that
        say "frame $bits$(zeros 16) $(zeros 259)2 => refused 2"
        say "frame $bits$(zeros 16) $(zeros 259) => refused 1"
    done
    say "frame $(zeros 20)2 $(zeros 260) => refused 2"
    say "frame 2${up#0} $(zeros 260) => refused 2"
    say "frame $up x$(zeros 259) => refused 2"
    say "frame ${up%0} $(zeros 260) => refused 1"
    say "frame ${up}0 $(zeros 260) => refused 1"
    say "frame ${up}0 $(zeros 259) => refused 1"
    say "frame $up $(zeros 261) => refused 1"
    say "frame $(twos 20) $(twos 260) => refused 1"
    say "frame $(zeros 260) $up => refused 1"
    for bits in ' ' "$up " " $(zeros 260)" '? 00'; do say "frame $bits => refused 1"; done
    # an even number of digits other than 80 is a wrong number of octets, and none is even; what is no octets is not understood
    for digits in '' 00 "$(zeros 78)" "$(octets)ff" "$(octets)$(octets)" "$(zeros 992)"; do say "frame? $digits => refused 1"; done
    for digits in 0 "$(zeros 79)" "$(octets)0" "$(octets 39 0F)" "$(octets 2 8G)" "0x$(octets)" "$(octets)h" "$(zeros 993)" "$(zeros 994)" "$up $(zeros 260)" "$(octets) " " $(octets)"; do
        say "frame? $digits => ?"
    done
    for line in 'frame' 'frame ' 'frame?' 'frame?  ' "frame $up" "frame $up $(zeros 260) " "frame $up  $(zeros 260)" "frame $up $(zeros 260) 0" "Frame $up $(zeros 260)" "frame?? $(octets)"; do say "$line => ?"; done
    # neither is lent a buffer
    for line in "40 7 frame $up $(zeros 260)" "80 7 frame $up $(zeros 260)" "260 7 frame? $(octets)" "0 7 frame? 00" '40 7 frame  '; do say "lend $line => ?"; done
}

# The bursts of a stream of one block.
sent() { printf 'send %s\nend\n' "$1" | run_proved kit; } # BITS
sent_zeros() { sent "$(zeros "$1")"; }                    # COUNT

# The eight bursts of a block, one after another on standard input, as lines that take them: the first flags are altered, the next missing.
flagged() { # ALTERED MISSING
    tr -d '\n' | awk -v altered="$1" -v missing="$2" '{
        for (b = 0; b < 8; b++) {
            e = substr($0, 116 * b + 1, 116)
            flag = b < 4 ? 59 : 58
            bit = substr(e, flag, 1)
            if (b < altered) bit = 1 - bit
            else if (b < altered + missing) bit = 2
            print "take " b " " substr(e, 1, flag - 1) bit substr(e, flag + 1)
        }
    }'
}

# The same lines with one of the bursts missing.
without_burst() { flagged 0 0 | sed "s/^take $1 .*/take $1 $(twos 116)/"; } # BURST

# The last of the lines on standard input is answered so.
ends_in() { [ "$(run_proved kit | tail -n 1)" = "$1" ]; } # ANSWER

# Three altered flags are repaired by the others, and four by the parity; where it is bad as FACCH and as speech, four flags give 9.
flags_as_printed() {
    for altered in 0 1 2 3 4; do
        sent_zeros 260 | flagged $altered 0 | ends_in "speech 0 0 $(zeros 260)" || return 1
        sent_zeros 184 | flagged $altered 0 | ends_in "facch 0 0 $(zeros 184)" || return 1
    done
    # as FACCH the speech has three ones, those of p; a good FACCH has an even number, since D + 1 divides its generator
    sent_zeros 260 | flagged 5 0 | ends_in 'refused 8 0 0' || return 1
    for altered in 3 5; do zeros 928 | flagged $altered 0 | ends_in 'refused 8 0 0' || return 1; done
    zeros 928 | flagged 4 0 | ends_in 'refused 9 0'
}

# A missing flag has no vote. With one vote more for the kind that was sent the others repair it, with as many for either the parity.
missing_flags_as_said() {
    for altered in 0 1 2 3; do
        for missing in $((7 - 2 * altered)) $((8 - 2 * altered)); do
            sent_zeros 260 | flagged $altered $missing | ends_in "speech 0 0 $(zeros 260)" || return 1
            sent_zeros 184 | flagged $altered $missing | ends_in "facch 0 0 $(zeros 184)" || return 1
        done
        zeros 928 | flagged $altered $((7 - 2 * altered)) | ends_in 'refused 8 0 0' || return 1
        zeros 928 | flagged $altered $((8 - 2 * altered)) | ends_in 'refused 9 0' || return 1
    done
    # more votes for the other kind
    sent_zeros 260 | flagged 1 7 | ends_in 'refused 8 0 0'
}

# A block of which one burst never came, and which is taken as missing in its turn, is found by the seven others.
lost_bursts_as_said() {
    ones=$(zeros 184 | tr 0 1)
    for burst in 0 1 2 3 4 5 6 7; do
        sent "$ones" | without_burst $burst | ends_in "facch 0 0 $ones" || return 1
        # bits that are unprotected in speech are given as 0 where they are missing
        sent "${ones%??}$(zeros 78)" | without_burst $burst | ends_in "speech 0 0 ${ones%??}$(zeros 78)" || return 1
    done
}

# The 15 sets of bursts that are all at even places among a block's eight, and the 15 that are all at odd: burst b is in the set N where bit b of N is 1.
of_one_class='1 4 5 16 17 20 21 64 65 68 69 80 81 84 85 2 8 10 32 34 40 42 128 130 136 138 160 162 168 170'

# n bits that follow no simple rule.
mixed() { awk -v n="$1" 'BEGIN { for (k = 0; k < n; k++) printf "%d", int(k * k / 3) % 2 }'; } # COUNT

# The eight bursts of a block on standard input, taken by a fresh receiver once for each set, of which those in the set never came.
without_sets() { # SET...
    tr -d '\n' | awk -v sets="$*" -v never="$(twos 116)" '{
        number = split(sets, set, " ")
        for (i = 1; i <= number; i++) {
            print "fresh"
            for (b = 0; b < 8; b++) print "take " b " " (int(set[i] / 2 ^ b) % 2 ? never : substr($0, 116 * b + 1, 116))
            print "totals"
        }
    }'
}

# What such a block is answered where nothing that is protected is lost: its unprotected bits, of which c(378+k) = d(182+k) stands in burst (378+k) mod 8, are 0
# where that is in the set. Behind it are the totals: one good block, and no disagreement.
bits_come_back() { # KIND BITS SET...
    awk -v kind="$1" -v d="$2" 'BEGIN {
        for (i = 3; i < ARGC; i++) {
            print "fresh"
            for (b = 0; b < 7; b++) print "waiting"
            printf "%s 0 0 ", kind
            for (k = 0; k < length(d); k++) printf "%s", (k > 181 && kind == "speech" && int(ARGV[i] / 2 ^ ((k + 196) % 8)) % 2 ? "0" : substr(d, k + 1, 1))
            print ""
            print (kind == "speech" ? "1 0 0 0" : "0 1 0 0")
        }
    }' "$@"
}

# Each block comes back from each set of one class. The speech with ones at u(30), u(31), u(32), u(36), u(37), u(38) has the second bits of zeros, but for pairs 30 and 42, whose
# second bits 61 and 85 stand in burst 5. So it comes back without the bursts 0, 2, 4, 6, and not without 5 besides: both blocks then agree everywhere, and the rule takes the zeros.
classes_as_proved() {
    # shellcheck disable=SC2086 # several sets
    for block in "speech $(mixed 260)" "speech $(zeros 260 | tr 0 1)" "facch $(mixed 184)" "facch $(zeros 184 | tr 0 1)"; do
        sent "${block#* }" | without_sets $of_one_class | run_proved kit >"$room/came"
        bits_come_back "${block% *}" "${block#* }" $of_one_class | cmp - "$room/came" || return 1
    done
    twin=$(ones_at 260 60 62 64 72 74 76)
    [ "$(sent "$twin" | without_sets 85 | run_proved kit | tail -n 2)" = "speech 0 0 $twin
1 0 0 0" ] && [ "$(sent "$twin" | without_sets 117 | run_proved kit | tail -n 2)" = "speech 0 0 $(zeros 260)
1 0 0 0" ]
}

# A SACCH message comes back from each set of its four bursts that are all at even places or all at odd, also without its flags; from one burst alone this one does not.
messages_as_proved() {
    message=$(mixed 184)
    bursts=$(printf 'sacch %s\n' "$message" | run_proved kit)
    for lost in 1 4 5 2 8 10; do
        printf '%s\n' "$bursts" | awk -v lost="$lost" -v never="$(twos 116)" '{
            for (b = 0; b < 4; b++) {
                e = substr($0, 116 * b + 1, 116)
                arrived = arrived (int(lost / 2 ^ b) % 2 ? never : substr(e, 1, 57) "22" substr(e, 60))
            }
            print "sacch? " arrived
        }' | ends_in "0 $message" || return 1
    done
    printf 'sacch? %s%s\n' "$(twos 348)" "$(printf '%s' "$bursts" | cut -c 349-)" | ends_in 'refused 8 0'
}
