# Makes a report for each input of a folder, several at a time:
#   make -k -j"$(nproc)" -f tools/reports.mk PROBLEMS=dir
# The report of dir/NAME.scm is dir/NAME.report. It is not made again if it is newer than its input. A search that ends at a
# limit gives a report too. If an input is refused, or the program ends otherwise, the input is named with what was said.
# The names of folders and inputs may hold no white space, `$`, quote or bracket, nor any other character that make or the
# shell reads in its own way.
here := $(dir $(lastword $(MAKEFILE_LIST)))
CPSA ?= $(here)../cpsa
WORDS = shapes
PROBLEMS = problems

.PHONY: all program
all: $(patsubst %.scm,%.report,$(wildcard $(PROBLEMS)/*.scm))
	@$(if $^,,echo 'no inputs: $(PROBLEMS)/*.scm' >&2; exit 1)

%.report: %.scm | program
	@said=$$($(CPSA) $(WORDS) 2>&1 <$< >$@.new); status=$$?; \
	if [ $$status -le 1 ]; then mv $@.new $@; \
	else rm -f $@.new; echo "$<: $${said:-status $$status}" >&2; exit $$status; fi

# The program is built before several of it run.
program:
	@$(CPSA) analyse --limit 0 </dev/null >/dev/null
