# SCMI by the library for C, in place of SCP-firmware: OP-TEE's core/lib/scmi-server/sub.mk ends by including this file
# out of the folder that CFG_SCP_FIRMWARE names. What it has set until then is SCP-firmware's, and is left out. README.md
# says which variables a platform sets.

SCMI_PORT := $(abspath $(scpfw-path))

ifneq ($(CFG_ARM64_core),y)
$(error SCMI: the library is for aarch64: CFG_ARM64_core is not y)
endif
ifeq ($(wildcard $(SCMI_LIBRARY)),)
$(error SCMI: SCMI_LIBRARY names no library: '$(SCMI_LIBRARY)')
endif
ifeq ($(SCMI_PORT_BOARD),)
$(error SCMI: SCMI_PORT_BOARD names no files of a board)
endif

# Where the repository, and where tools/install, has it.
SCMI_PORT_INCLUDE := $(abspath $(SCMI_PORT)/../../include)
SCMI_PORT_MEMORY := $(firstword $(wildcard $(addprefix $(SCMI_PORT_INCLUDE)/,scmi_memory.c tolbjir/scmi_memory.c)))
ifeq ($(SCMI_PORT_MEMORY),)
$(error SCMI: $(SCMI_PORT_INCLUDE) has no scmi_memory.c)
endif

srcs-y := $(SCMI_PORT)/scmi_server.c $(SCMI_PORT_MEMORY) $(abspath $(SCMI_PORT_BOARD))
gensrcs-y :=
incdirs-y :=
incdirs_ext-y := $(SCMI_PORT)/include $(abspath $(SCMI_PORT)/../tf-a) $(SCMI_PORT_INCLUDE)
cppflags-lib-y := $(addprefix -D,$(SCMI_PORT_DEFINES))
cflags-lib-y :=
# No file of this folder's is compiled, so the folder that OP-TEE makes for their objects is not there.
cflags-y := -Wno-missing-include-dirs
# The library's own calls are in no header.
cflags-$(SCMI_PORT_MEMORY)-y := -Wno-missing-prototypes -Wno-missing-declarations
libdeps := $(SCMI_LIBRARY) $(libdeps)
