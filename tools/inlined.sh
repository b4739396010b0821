#!/bin/bash
# Holds the archive to its speed: a function that every step or every field of a file goes through must be laid into its
# caller, since a call of its own, with structs and slices through memory, costs up to a third of the run. The compiler
# does so where a function is small or is called in one place, and the language has no word for it: one more caller, or
# one more test, and it is a function of its own again. Ends with 0 if none of those below has a symbol in the archive,
# with 1 and a line for each that has.
set -eu
cd "$(dirname "${BASH_SOURCE[0]}")/.."
. tools/env.sh

# Each as its crate, its file and its name.
must='
    reading::choosing::regulated reading::choosing::current reading::choosing::chosen reading::choosing::choice
    reading::choosing::power_fits reading::choosing::current_fits reading::choosing::powers_refusal
    reading::choosing::currents_refusal reading::convert::converted reading::convert::milliamperes
    reading::convert::watts_of_bits reading::convert::milli_of_bits reading::convert::rounded
    fields::values::power fields::values::current fields::values::weather fields::values::voltage_in
    stick::walking::missing stick::walking::read stick::walking::weather stick::walking::voltage
    stick::sites::reading_at stick::sites::voltage_at
    energy::energy::removed energy::energy::added
    storage::giving::kind_out storage::giving::kind_in storage::giving::kind_of storage::giving::given
    storage::giving::taken storage::giving::done storage::steps::rest
    rows::rows::unit_holding
    records::records::put_asked records::records::put_record
    members::sums::signs members::sized::share_sized members::sized::next_sized members::shares::share_alike
    members::shares::next_request rules::rules::share_size rules::rules::request_after
    fleet::steps::ask fleet::steps::ask_by_watts fleet::steps::ask_by_current fleet::steps::own
    fleet::steps::give_own fleet::steps::give_led fleet::steps::give_all fleet::steps::step
    guided::units::after_watts guided::units::before_watts guided::units::step_led
    roofs::steps::light roofs::steps::step
    stretch::halves::step_units stretch::halves::step_roofs stretch::stretches::at_field
'
symbols=$(nm "$YB_ARCHIVE" | sed -n 's/^[0-9a-f]* [tT] //p')

# Some functions are always their own, so that an archive without any such symbol does not tell.
if ! grep -q '::' <<<"$symbols"; then
    echo 'the archive names no function but those for C: it does not tell which are laid into their callers'
    exit 1
fi
bad=0
for name in $must; do
    IFS=: read -r crate _ file _ function <<<"$name"
    if ! grep -qE "^(pub )?fn $function\(" "crates/$crate/src/$file.rt"; then
        echo "$name: there is no such function; tools/inlined.sh must name the one that took its place"
        bad=1
    elif grep -qxF "$name" <<<"$symbols"; then
        echo "$name: a function of its own in the archive: the run is slower until it is laid into its caller again"
        bad=1
    fi
done
exit "$bad"
