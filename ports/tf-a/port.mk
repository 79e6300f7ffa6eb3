# SCMI by the library for C, in place of TF-A's drivers/scmi-msg. A platform's makefile ends with
#
#   SCMI_LIBRARY := FOLDER/libscmi_c-aarch64-none-elf.a
#   SCMI_PORT_DEFINES := SCMI_PORT_CLOCKS=8 ..          what the platform has, for less memory; see README.md
#   include FOLDER/ports/tf-a/port.mk
#
# The headers of drivers/scmi-msg stay, for the platform's own files, and so do its resets and sensors, if the platform
# has them: the library has no such protocols (scmi_others.c). SCMI_PORT_BOARD names a file that knows the board
# in place of TF-A's hooks (scmi_service_board.h). SCMI_PORT_TRACE := 1 prints each message and change.

SCMI_PORT := $(dir $(lastword $(MAKEFILE_LIST)))
SCMI_PORT_BOARD ?= $(SCMI_PORT)scmi_hooks.c $(SCMI_PORT)scmi_no_hooks.c

ifneq ($(ARCH),aarch64)
$(error SCMI: the library is for aarch64, and ARCH is $(ARCH))
endif
ifeq ($(wildcard $(SCMI_LIBRARY)),)
$(error SCMI: SCMI_LIBRARY names no library: '$(SCMI_LIBRARY)')
endif

# Where the repository, and where tools/install, has it.
SCMI_PORT_MEMORY := $(firstword $(wildcard $(addprefix $(SCMI_PORT)../../include/,scmi_memory.c tolbjir/scmi_memory.c)))
ifeq ($(SCMI_PORT_MEMORY),)
$(error SCMI: $(SCMI_PORT)../../include has no scmi_memory.c)
endif

ifeq ($(SCMI_PORT_TRACE),1)
SCMI_PORT_BOARD += $(SCMI_PORT)scmi_trace.c
SCMI_PORT_DEFINES += SCMI_PORT_TRACE=1
endif

SCMI_PORT_KEPT := $(filter drivers/scmi-msg/reset_domain.c drivers/scmi-msg/sensor.c,$(BL31_SOURCES))
ifneq ($(SCMI_PORT_KEPT),)
SCMI_PORT_BOARD += $(SCMI_PORT)scmi_others.c
PLAT_INCLUDES += -Idrivers/scmi-msg
endif

BL31_SOURCES := $(filter-out drivers/scmi-msg/%.c,$(BL31_SOURCES)) $(SCMI_PORT_KEPT) \
	$(SCMI_PORT)scmi_service.c $(SCMI_PORT)scmi_on_stack.S $(SCMI_PORT_BOARD) $(SCMI_PORT_MEMORY)
BL31_LIBS += $(SCMI_LIBRARY)
$(foreach it,$(SCMI_PORT_DEFINES),\
	$(eval $(call add_define_val,$(word 1,$(subst =, ,$(it))),$(word 2,$(subst =, ,$(it))))))
