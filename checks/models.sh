# Checks of the models of waits: that they and the code name the same steps, and what spin finds in them. Part of checks/run.
# shellcheck shell=sh

same_steps() {
    needs python3
    python3 "$top/checks/models" --compare
}
check "the code and the models of waits name the same steps" same_steps

found_by_spin() {
    needs python3 spin gcc
    python3 "$top/checks/models"
}
check "spin finds in the models of waits the faults that are planted there, and nothing else" found_by_spin
