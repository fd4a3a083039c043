# shellcheck shell=sh disable=SC2034
# The C files by subject, without their ending, for the scripts that compile them:
# printf '%s.c ' $PLAIN names the sources, printf 'build/%s.o ' $PLAIN the objects.
PLAIN="plain plain_period plain_tests plain_rules plain_reasons plain_radiation plain_grids"
CASES="cases_random cases_grid cases_day cases_frost cases_damage_grid cases_damage_call cases_radiation binary64 cases_grids cases_grids_written cases_text"
FUZZ="fuzz fuzz_calls fuzz_period fuzz_account fuzz_rejected fuzz_melt fuzz_frost fuzz_reasons fuzz_radiation fuzz_grids fuzz_pairs fuzz_text fuzz_counts"
FIGURES="figures figures_frost figures_reasons figures_radiation figures_grids"
VECTORS="vectors vectors_tokens vectors_form vectors_limits vectors_grid vectors_weather vectors_foretold vectors_frost vectors_melt vectors_rejected"
SPEED="speed speed_year speed_sheet speed_grids"

# How every one of them is compiled. Each operation on doubles is rounded once, where it stands, so that M-103's estimates can be compared to the last
# unit: no multiplication and addition are made one, and nothing like -ffast-math has a place here.
C11="-std=c11 -ffp-contract=off"
WARN="$C11 -Wall -Wextra -Wconversion -Wshadow"
