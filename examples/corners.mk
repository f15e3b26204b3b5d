# Many netlists and corners at once: a run for each delay file delays/NAME.CORNER.csv, on the netlist nets/NAME.bench.
#
#     make -k -j 8 -f corners.mk                        on one machine; -k goes on with the others where one fails
#     make -f corners.mk runs/NAME.CORNER.done          one run
#
# Beside the three files of a run stand its words, what it printed, and its err. A run whose .done is there was found good by check. It is
# made anew where its delays or its netlist are newer; where WORDS change, remove runs/ first. In mode skewed:
#
#     make -f corners.mk WORDS='--mode skewed --scan nets/$(basename $*).scan'
PDFGEN = pdfgen
WORDS = --paths 1000 --budget 1000 --mode broadside

all: $(patsubst delays/%.csv,runs/%.done,$(wildcard delays/*.csv))

.SECONDEXPANSION:
runs/%.done: delays/%.csv nets/$$(basename $$*).bench
	mkdir -p runs
	echo '$(WORDS)' > runs/$*.words
	$(PDFGEN) gen nets/$(basename $*).bench $< runs/$*.tests runs/$*.report runs/$*.proofs $(WORDS) > runs/$*.out 2> runs/$*.err
	$(PDFGEN) check nets/$(basename $*).bench $< runs/$*.tests runs/$*.report runs/$*.proofs $(WORDS) >> runs/$*.out 2>> runs/$*.err
	touch $@

nets/%.bench:
	@echo 'corners.mk: no netlist $@, of which delays/ has a file (delays/NAME.CORNER.csv is of nets/NAME.bench)' >&2; exit 1

.PHONY: all
.SECONDARY:
