# kernels.mk: the certificates of a folder of kernels by make, each by a job of its own:
#
#     make -f PREFIX/share/kverify/kernels.mk -j 8 KERNELS=folder OUT=certificates
#
# A kernel is a file NAME.conditions with NAME.cl beside it, or FILE.NAME.conditions with FILE.cl, where a file has several kernels.
# `make list` prints the certificates, of which each is a goal: for a queue of jobs, as docs/HOSTS.md shows. OPTIONS are words for `kverify
# prove`, such as --devices 32.
KERNELS ?= .
OUT ?= certificates
KVERIFY_SHARE := $(patsubst %/,%,$(dir $(abspath $(lastword $(MAKEFILE_LIST)))))
KVERIFY ?= $(KVERIFY_SHARE)/../../bin/kverify
OPTIONS ?=
NAMES := $(patsubst $(KERNELS)/%.conditions,%,$(wildcard $(KERNELS)/*.conditions))
CERTIFICATES := $(NAMES:%=$(OUT)/%.certificate)
# The file of a kernel by its name.
file_of = $(firstword $(wildcard $(KERNELS)/$(1).cl) $(KERNELS)/$(basename $(1)).cl)

all: $(CERTIFICATES)

.SECONDEXPANSION:
$(CERTIFICATES): $(OUT)/%.certificate: $$(call file_of,$$*) $(KERNELS)/%.conditions | $(OUT)
	@sh $(KVERIFY_SHARE)/prove.sh $(KVERIFY) $(call file_of,$*) $(KERNELS)/$*.conditions $@ '$(wildcard $(KERNELS)/$*.certificate)' $(OPTIONS)

$(OUT):
	mkdir -p $@

list:
	@printf '%s\n' $(CERTIFICATES)

.PHONY: all list
