# Sourced by the scripts of this folder that run the program plan: where it is, and that it is built of what stands there now.
# shellcheck disable=SC2034 # the scripts use it
program=crates/plan/out/plan

plan_built() {
    { [ -x "$program" ] && [ -z "$(find crates.txt crates -path 'crates/*/out' -prune -o -type f -newer "$program" -print -quit)" ]; } ||
        (cd crates/plan && rt run </dev/null)
}
