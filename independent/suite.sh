# What the gate (.ci/run) and independent/compare share: the suites here, and in comparing.sh how two programs'
# answers are compared. For bash, sourced at the top of the repository.
# shellcheck shell=bash disable=SC2034

# A kind for each NUMBER, or words, which stand in the place of #.
each() { # KIND NUMBER...
    local kind=$1 number list=
    shift
    for number; do list+=", ${kind/\#/$number}"; done
    printf '%s' "${list#, }"
}

# Each KIND, and the same with WORD in front.
both() { # WORD KIND...
    local word=$1 kind list=
    shift
    for kind; do list+=", $kind, $word $kind"; done
    printf '%s' "${list#, }"
}

# Of a prediction's eight numbers each one not finite alone, and each two together; and with what 2 and 5 would
# refuse.
not_finite() { # LEAST_ALONE
    local low high
    each "not finite # alone: $1" {1..8}
    printf ', not finite before 2: 700, not finite before 5: 200'
    for low in {1..7}; do
        for ((high = low + 1; high <= 8; high++)); do printf ', not finite %s and %s: 30' "$low" "$high"; done
    done
}

# Problems whose t is about T at the far end, or at the old one, each way in time; and the same where |alpha| is
# about 1/64.
far_ends() {
    both backwards 'below the far end: 420' 'at the far end: 200' 'above the far end: 400' \
        'below the old far end: 340' 'at the old far end: 160' 'above the old far end: 330' 'between the far ends: 1500' \
        'below the far end with alpha below 1/64: 55' 'at the far end with alpha below 1/64: 22' \
        'above the far end with alpha below 1/64: 55' 'below the far end with alpha at 1/64: 28' \
        'at the far end with alpha at 1/64: 14' 'above the far end with alpha at 1/64: 28' \
        'below the far end with alpha above 1/64: 90' 'at the far end with alpha above 1/64: 40' \
        'above the far end with alpha above 1/64: 90'
}

# Solved cards that the old far end let pass, each way in time.
past_far_end() {
    both backwards 'past the far end 8: 450' 'past the far end 20: 300' 'x below the far end 0: 550' \
        'x below the far end 8: 75' 'x at the far end 0: 240' 'x at the far end 8: 55' 'x above the far end 8: 160' \
        'x above the far end 20: 190'
}

# Cards of version 2, by kind and verdict.
version_2() {
    each 'version 2 #' 'solved 0: 6900' 'solved 101: 190' 'solved 102: 120' 'solved 103: 105' 'solved 104: 94' \
        'solved 105: 100' 'solved 106: 88' 'solved 107: 115' 'solved 108: 88' 'solved 2: 145' 'solved 3: 265' \
        'solved 5: 50' 'solved 6: 135' 'solved 7: 115' 'solved 8: 1000' 'solved 11: 190' 'solved 20: 510' \
        'solved 21: 610' 'solved 22: 780' 'solved 23: 120' 'refused 0: 3900' 'refused 23: 195' 'refused 24: 3000' \
        'transfer 0: 1700' 'transfer 1: 70' 'transfer 2: 22' 'transfer 3: 80' 'transfer 5: 16' 'transfer 6: 14' \
        'transfer 20: 80' 'transfer 21: 210' 'transfer 22: 215' 'transfer 23: 78' 'transfer 50: 28' 'transfer 51: 56' \
        'transfer 52: 48'
}

# Objects and epochs: the ends of their ranges, and the first and the last number with so many digits.
objects_and_epochs() {
    local digits
    each 'epoch #' 'negative: 10000' 'zero: 1000' 'positive: 9900' 'at the lower end: 1500' 'at the upper end: 230'
    printf ', absent: 89000, object zero: 2100, object largest: 1700, '
    for digits in {1..18}; do
        both negative "epoch first of $digits: 12" "epoch last of $digits: 13"
        printf ', '
    done
    both negative 'epoch first of 19: 16'
    printf ', '
    each 'object first of #: 76' {1..10}
    printf ', '
    each 'object last of #: 88' {1..9}
}

# Each of some versions with each of some forms, but for the two pairs that are right.
fronts() { # LEAST
    local version form
    for version in 0 1 2 3 4294967295; do
        for form in 0 1 2 4294967295; do
            case "$version $form" in
            '1 0' | '2 1') ;;
            *) printf 'version %s form %s: %s, ' "$version" "$form" "$1" ;;
            esac
        done
    done
    printf 'version 1 form 0: 555, version 2 form 1: 200, another front: 16, no whole front: 25'
}

# A suite: the program's name here and in the independent program; the form of its inputs: the bytes of
# one, or, where these have many sizes and each is a file of its own, the ending of the files' names; the
# fewest inputs that the gate takes; and the fewest of each kind among them: kinds of answer, and for the
# series, predictions, transfers, cards' numbers, units of time, the far end, versions, objects and epochs kinds
# of input too, so that a list can't leave out what it must try.
suites=(
    "roots 8 20000 refused 1: 1000, refused 13: 1000, root: 20000"
    "root_digits 8 9000 refused 1: 100, refused 13: 430, root: 8500, rounded: 8500, turn: 459000"
    "series 8 35000 refused 60: 11000, series: 25000, below 4: 115, at 4: 3, above 4: 135, below -4: 125, at -4: 3, \
above -4: 130, $(both negative 'zero: 40' 'subnormal: 3400' 'infinite: 1' 'NaN: 520' 'size below 1e-100: 2900' \
'size 1e-100 to 1e-10: 1700' 'size 1e-10 to 1: 1400' 'size 1 to 4: 2800' 'size 4 to 8: 600' 'size above 8: 4400')"
    "predict 68 20000 $(each 'refused #: 100' {101..108}), refused 2: 20, refused 3: 20, refused 5: 20, refused 6: 20, \
refused 7: 20, refused 8: 20, refused 9: 20, refused 10: 20, refused 11: 20, solved: 10000, $(not_finite 120), $(far_ends)"
    "turn 64 10000 $(each 'refused #: 100' {101..108}), refused 2: 20, refused 4: 20, refused 5: 20, refused 6: 20, \
refused 7: 20, refused 11: 20, refused 12: 20, solved: 5000, $(not_finite 100)"
    "transfer 72 20000 refused 1: 20, refused 2: 20, refused 3: 20, refused 5: 20, refused 6: 20, refused 9: 20, \
refused 10: 20, refused 23: 20, refused 50: 20, refused 51: 20, refused 52: 20, solved: 10000, short: 6000, long: 6000, \
limit 1: 800, limit 2: 800, limit 20: 2000, limit 100: 6000, $(each 'not finite # alone: 40' {1..8}), \
angle 0 to 90: 2500, angle 90 to 180: 2500, angle 180 to 270: 2500, angle 270 to 360: 2500, below the bound near 0: 20, \
at the bound near 0: 20, above the bound near 0: 20, below the bound near 180 short: 20, \
at the bound near 180 short: 20, above the bound near 180 short: 20, below the bound near 180 long: 20, \
at the bound near 180 long: 20, above the bound near 180 long: 20, below the bound near 360: 20, \
at the bound near 360: 20, above the bound near 360: 20, below T(0): 200, at T(0): 200, above T(0): 200, \
below T(36): 200, at T(36): 150, above T(36): 200, ratio below 1e-9: 100, ratio 1e-3 to 0.1: 1000, \
ratio 0.1 to 10: 5000, ratio 10 to 1e3: 1000, ratio above 1e9: 500"
    "check_deck .deck 8000 solved 0: 10000, $(each 'solved #: 20' {101..108}), solved 2: 20, solved 3: 20, solved 5: 20, \
solved 6: 20, solved 7: 20, solved 8: 20, solved 11: 20, solved 20: 20, solved 21: 20, solved 22: 20, \
solved 23: 20, refused 0: 5000, refused 23: 20, refused 24: 20, deck 30: 20, deck 31: 20, deck 32: 20, \
deck 33: 20, deck 34: 20, deck 35: 20, deck 36: 20, deck 37: 20, deck 38: 20, transfer 0: 500, transfer 1: 20, \
transfer 2: 20, transfer 3: 20, transfer 5: 20, transfer 6: 20, transfer 20: 160, transfer 21: 260, transfer 22: 140, \
transfer 23: 150, transfer 50: 20, transfer 51: 20, transfer 52: 20, with transfer: 400, refused with transfer: 150, \
unit subnormal: 120, unit below 1e-290: 250, unit 1e-290 to 1e-150: 190, unit 1e-150 to 1e-50: 350, \
unit 1e-50 to 1e50: 10000, unit 1e50 to 1e150: 400, unit 1e150 to 1e290: 210, unit above 1e290: 1000, \
transfer unit subnormal: 150, transfer unit below 1e-290: 150, transfer unit 1e-290 to 1e-150: 20, \
transfer unit 1e-150 to 1e-50: 120, transfer unit 1e-50 to 1e50: 1000, transfer unit 1e50 to 1e150: 100, \
transfer unit 1e150 to 1e290: 25, transfer unit above 1e290: 500, units apart: 350, units apart among every kind: 60, \
residual rounded to 0: 60, residual subnormal: 500, residual above 1e297: 400, transfer residual rounded to 0: 80, \
transfer residual subnormal: 200, transfer residual above 1e297: 100, far in seconds: 10000, near in seconds: 1240, \
transfer far in seconds: 2000, transfer near in seconds: 170, told from no unit: 1800, \
told from no unit of transfers: 350, told from the first unit: 1100, told from the last unit: 1100, \
told from the unit before: 1100, told from all units: 1500, told from two products: 1500, \
told from times in seconds: 1200, told from sums of times: 1500, told from another order: 250, \
told from the largest gap: 700, overflow by all units: 20, overflow by two products: 250, \
overflow by times in seconds: 30, overflow by sums of times: 40, $(each 'fine number # accepted: 200' {101..108}), \
fine number of a later place: 90, fine number of another place: 500, fine number for a solved problem: 14, \
$(each 'fine number for #: 14' 2 3 {5..11}), old card 0: 600, old card 23: 45, old card 24: 2000, \
$(each 'old card for #: 75' {101..108}), $(each 'old card for #: 25' 2 3 {5..11}), \
old card for a solved problem: 2000, old card but for a bit: 140, old and new accepted: 150, longest listing: 3, \
longest listing of version 1: 1, $(past_far_end), version 1: 3700, version 2: 1600, refused version 1: 1100, \
refused version 2: 480, $(each 'version 1 deck #' '32: 53' '33: 92' '34: 100' '35: 195' '36: 200' '37: 360' '38: 100'), \
$(each 'version 2 deck #' '32: 17' '33: 14' '34: 60' '35: 165' '36: 98' '37: 88' '38: 37'), \
version word 0 deck 31: 24, version word 3 deck 31: 20, version word 4294967295 deck 31: 8, \
another version word deck 31: 98, $(version_2), $(objects_and_epochs), objects and epochs all different: 1150, \
epochs alone different: 110, objects and epochs all the same: 145, same but for object and epoch: 225, \
same but for the version: 780, $(each 'byte altered #: 392' once twice thrice)"
    "write_deck .problems 900 written: 500, solved: 3000, $(each 'refused #: 50' {101..108}), refused 2: 100, \
refused 3: 100, refused 5: 50, refused 6: 50, refused 7: 50, refused 8: 50, refused 9: 32, refused 10: 50, refused 11: 50, \
deck 40: 10, deck 46: 100, cards 0: 4, cards 1: 100, cards 2: 4, cards 255: 3, cards 256: 6, cards between: 100, \
version 2 written: 125, version 2 solved: 1900, $(each 'version 2 refused #: 29' {101..106}), \
$(each 'version 2 refused #: 16' 107 108), $(each 'version 2 refused #: 23' 2 3 {5..11}), version 2 cards 0: 8, \
version 2 cards 1: 38, version 2 cards 2: 3, version 2 cards 255: 2, version 2 cards 256: 3, version 2 cards between: 72, \
version 1 deck 40: 21, version 1 deck 46: 110, version 2 deck 40: 16, version 2 deck 46: 60, deck 42: 115, \
deck 42 before 40: 22, deck 42 before 46: 36, $(fronts 5), epoch negative: 1500, epoch zero: 49, epoch positive: 1600, \
epoch at the lower end: 24, epoch at the upper end: 18, object zero: 98, object largest: 49"
    "copy_deck .deck 1100 same: 500, cleared: 60, deck 30: 8, deck 31: 2, deck 32: 2, deck 33: 2, deck 34: 2, \
deck 35: 2, deck 36: 2, deck 37: 2, deck 38: 2, cards 0: 2, cards 1: 2, cards 2: 2, cards 255: 1, \
cards 256: 2, cards between: 400, with transfer: 60, refused with transfer: 10, with old card: 260, version 1 same: 525, \
version 1 cleared: 60, version 2 same: 300, version 2 cleared: 68, refused version 1: 64, refused version 2: 58, \
$(each 'version 1 deck #' '32: 3' '33: 3' '34: 8' '35: 18' '36: 11' '37: 16' '38: 5'), \
$(each 'version 2 deck #' '32: 3' '33: 3' '34: 4' '35: 16' '36: 14' '37: 8' '38: 8'), \
$(each 'version word # deck 31: 2' 0 3 4294967295), another version word deck 31: 8"
)

. independent/comparing.sh
