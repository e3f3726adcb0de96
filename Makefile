# m4r: proved frozen states of GNU M4. Needs the Rattle toolchain (`rt` on the path), nothing else.

include install.mk

# What is compiled and proved, and what the program's stored run reads. A page that changes proves nothing again.
SOURCES := crates.txt $(shell find crates -name out -prune -o -type f ! -name '*.md' ! -path '*/must-fail/*' -print)

.PHONY: help clean check demo test-program cases programs differences expressions chance dist deb bench real-files \
	real-projects mutants hostile refused-memory torn wrong-bodies

# What can be made, from the comments above the targets.
help:
	@awk '/^# /{said = said substr($$0, 2); next} \
		/^[a-z][a-z0-9-]*:/{sub(":.*", ""); printf "%-16s%s\n", $$0, said} {said = ""}' $(MAKEFILE_LIST)

# Removes what was built here: the program, archives, and what the toolchain keeps of each crate.
clean:
	rm -rf m4r build.log dist crates/*/out

# The program: proved, then built. A crate that is not proved is not built. V=1 shows what the toolchain says.
m4r: $(SOURCES)
	@V=$(V) tools/build
	@cp crates/m4r/out/m4r m4r

# Every proof from nothing, every must-fail edit, every test; then the scripts that ask the program.
# The last line is the gate's own: N passed, M failed.
check:
	tests/gate

# The main job on a real file, with what goes in, what comes out, and whether it is as expected.
demo: m4r
	tests/program/demo

# Runs over files, standard input and full devices, beside GNU m4 where it is installed.
test-program: m4r
	tests/program/command_line

# Small macro programs with what is expected of each, beside GNU m4 where it is installed.
cases: m4r
	tests/program/cases/run

# Whole macro programs, a library and a page each, in one run and from the frozen library.
programs: m4r
	tests/program/programs/run

# The cases of docs/DIFFERENCES.md, on m4r, and on GNU m4 where it is installed.
differences: m4r
	tests/pages/differences

# Expressions made by chance, on m4r and GNU m4; skipped where GNU m4 is not installed.
expressions: m4r
	tests/program/expressions

# Macro programs made by chance, whole and from frozen files, on m4r and GNU m4; skipped where GNU m4 is not installed.
chance: m4r
	tests/program/chance

# m4r and GNU m4 side by side, in time and memory. Give BENCH=--save to keep the numbers.
bench: m4r
	bench/run $(BENCH)

# The frozen files of autoconf, where they are installed.
real-files: m4r
	tests/program/real_files

# Programs of other packages that call m4, with m4r in its place.
real-projects: m4r
	tests/program/real_projects

# Damaged frozen files, made by chance, against the second reader.
mutants: m4r
	tests/program/mutants

# Closed streams, many files, colliding names, and work that grows as its input does.
hostile: m4r
	tests/program/hostile

# Each request for memory of a run refused in turn.
refused-memory: m4r
	tests/program/refused_memory

# Frozen files that are cut while they are written, reloaded.
torn: m4r
	tests/program/torn

# A Debian package of it, in dist/, with check-macros on the path as m4r-check-macros.
deb: m4r
	tools/deb dist

# The wrong bodies that the gate leaves out. Give CRATES='m4_tool ..' to try those of some crates, and
# ROWS=1 to run those that a table of rows shows on these rows, without a proof.
wrong-bodies:
	tests/wrong_bodies/run $(if $(ROWS),--rows) $(CRATES)

# The archive of a release, in dist/: program, man page, pages, completions, examples and checksums.
dist: m4r
	tools/dist dist
