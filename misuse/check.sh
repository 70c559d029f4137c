#!/usr/bin/env bash
# Sees that the compiler refuses a begun sheet that is neither closed nor struck, and a leg line on a closed sheet.
# Each program is written to a copy of the crates outside the tree and checked over the proved crates; the proper one has to
# be proved, so that a refusal of another is the misuse's own.
set -u
root=$(cd "$(dirname "$0")/.." && pwd -P)
folder=$(mktemp -d) || exit 1
trap 'rm -rf "$folder"' EXIT
if ! bash "$root/tools/copy_crates.sh" sheets "$folder" misuse; then
    echo "misuse: the crates were not copied"
    exit 1
fi

# A program that begins a sheet and puts a leg line, and then does these lines.
program() {
    cat >"$folder/crates/misuse/src/main.rt" <<END
#![tactic(auto)]

use charts::Leg;
use costs::Money;
use sheets::{BegunSheet, Form, NumberedLeg};

fn use_sheet(out: &mut [u8], leg: NumberedLeg<Money>) {
    let Ok(mut sheet) = BegunSheet::<Money>::begin(Form::Chart, 2, out) else {
        return;
    };
    let put = sheet.leg(out, leg);
    $1
}

fn main() {
    let leg = Leg {
        from: 0,
        to: 1,
        hours: 1,
        cost: Money { dollars: 1 },
    };
    use_sheet(&mut [0; 100], NumberedLeg { number: 0, leg });
}
END
}

check_program() {
    (cd "$folder/crates/misuse" && rt check) >"$folder/said" 2>&1
}

failed=0
# NAME ERROR LINES: the compiler refuses the program of these lines with this error
refused() {
    program "$3"
    if check_program; then
        echo "misuse: $1: NOT refused"
        failed=1
    elif grep -q "main.rt:.*error\[$2\]" "$folder/said"; then
        echo "misuse: $1: refused as expected: $2"
    else
        echo "misuse: $1: NOT refused as expected: $2"
        grep -v '^rt: chose\|^checked ' "$folder/said" | sed 's/^/    /' | head -20
        failed=1
    fi
}

program 'let _ = put;
    match sheet.close(out) {
        Ok(_) => {}
        Err(begun) => begun.strike(out),
    }'
if check_program; then
    echo "misuse: a sheet that is closed or struck: proved"
else
    echo "misuse: a sheet that is closed or struck: NOT proved"
    grep -v '^rt: chose\|^checked ' "$folder/said" | sed 's/^/    /' | tail -20
    failed=1
fi

refused 'a begun sheet forgotten' linear-value-let-go 'let _ = put;
    let _forgotten = sheet;'

refused 'a begun sheet forgotten where a line is refused' linear-value-let-go 'if put.is_err() {
        return;
    }
    sheet.strike(out);'

refused 'a begun sheet forgotten where closing hands it back' linear-value-let-go 'let _ = put;
    if let Ok(closed) = sheet.close(out) {
        let _length = closed.length();
    }'

refused 'a leg line on a closed sheet' unknown-method 'let _ = put;
    match sheet.close(out) {
        Ok(mut closed) => {
            let _ = closed.leg(out, leg);
        }
        Err(begun) => begun.strike(out),
    }'

refused 'a leg line after closing' borrow-e0382 'let _ = put;
    let closing = sheet.close(out);
    let _ = sheet.leg(out, leg);
    match closing {
        Ok(_) => {}
        Err(begun) => begun.strike(out),
    }'

exit $failed
