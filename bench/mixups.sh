#!/bin/sh
# A quantity handed over where another belongs must not compile: each ordered pair of Depth, TenthF, CurveNumber and FrostIndex, as
# a parameter, and each wrong quantity in the day record's gross precipitation (a Depth) and mean temperature (a TenthF) and as a
# setpoint (a FrostIndex). Each try is a crate over copies of the library's in a temporary folder. The right quantity must be proved; a wrong one
# must be refused, once, by the compiler's type error and nothing else.
set -eu
cd "$(dirname "$0")/.."
work=$(mktemp -d)
trap 'rm -rf "$work"' EXIT
source=$work/crates/mixup/src/lib.rt

# The library and what it stands on, and the crate of the tries above them.
below=$(sed -n 's/^recharge: //p' crates.txt)
mkdir -p "$work/crates/mixup/src"
: >"$work/crates.txt"
for crate in recharge $below; do
    grep "^$crate:" crates.txt >>"$work/crates.txt"
    tar -cf - --exclude="crates/$crate/out" "crates/$crate" | tar -xf - -C "$work"
done
echo "mixup: recharge $below" >>"$work/crates.txt"

check() { # what the toolchain says of the crate
    (cd "$work/crates/mixup" && rt check) >"$work/said" 2>&1
}

parameter() { # NAME WANTED GIVEN: a function that wants one quantity, and one that hands it the other
    cat <<END
fn wants_$1(x: recharge::$2) -> recharge::$2 {
    x
}

pub fn hands_$1(x: recharge::$3) -> recharge::$2 {
    wants_$1(x)
}
END
}

record() { # GROSS MEAN: a day record with these quantities
    cat <<END
pub fn record(gross: recharge::$1, mean: recharge::$2) -> recharge::DayRecord {
    recharge::DayRecord {
        serial: 1,
        day_of_year: 1,
        gross,
        minimum: recharge::TenthF(0),
        mean,
        maximum: recharge::TenthF(1500),
        potential: recharge::Depth(0),
    }
}
END
}

setpoints() { # SECOND: setpoints with this quantity
    cat <<END
pub fn setpoints(second: recharge::$1) -> recharge::Setpoints {
    recharge::Setpoints {
        first: recharge::FrostIndex::FIRST_SETPOINT,
        second,
    }
}
END
}

fail() {
    echo "mixups: $*" >&2
    cat "$work/said" >&2
    exit 1
}

tried=0
bad() { # WANTED GIVEN, and the source on standard input
    tried=$((tried + 1))
    cat >"$source"
    if check; then fail "a $2 passes for a $1"; fi
    grep -q "error\[mismatched-types\]: expected \`$1\`, found \`$2\`" "$work/said" || fail "a $2 for a $1 fails for another reason"
    [ "$(grep -c error "$work/said")" -eq 1 ] || fail "a $2 for a $1 fails for other reasons too"
}

others() { # QUANTITY: the quantities that it is not
    for quantity in Depth TenthF CurveNumber FrostIndex; do
        [ $quantity = "$1" ] || echo $quantity
    done
}

{
    parameter one Depth Depth
    parameter two TenthF TenthF
    parameter three CurveNumber CurveNumber
    parameter four FrostIndex FrostIndex
    record Depth TenthF
    setpoints FrostIndex
} >"$source"
check || fail "the right quantities are refused"
grep -q '^logic=proved functions=10 ' "$work/said" || fail "the right quantities are not proved"

for wanted in Depth TenthF CurveNumber FrostIndex; do
    for given in $(others $wanted); do
        parameter one $wanted "$given" > "$work/try"
        bad $wanted "$given" < "$work/try"
    done
done
for given in $(others Depth); do
    record "$given" TenthF > "$work/try"
    bad Depth "$given" < "$work/try"
done
for given in $(others TenthF); do
    record Depth "$given" > "$work/try"
    bad TenthF "$given" < "$work/try"
done
for given in $(others FrostIndex); do
    setpoints "$given" > "$work/try"
    bad FrostIndex "$given" < "$work/try"
done
echo "mixups: $tried wrong quantities do not compile"
