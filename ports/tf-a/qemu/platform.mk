# QEMU's platform of TF-A with SCMI by the port. Copy this folder to plat/scmi of TF-A, and build with
#
#   make PLAT=scmi SCMI_FOLDER=FOLDER ..        FOLDER has include, lib and ports, as tools/install leaves them
#
# Whoever copies this has tables.c in it, and these numbers as large as the tables.

HERE := $(dir $(lastword $(MAKEFILE_LIST)))
SCMI_LIBRARY ?= $(SCMI_FOLDER)/lib/libscmi_c-aarch64-none-elf.a

include plat/qemu/qemu/platform.mk

PLAT_INCLUDES := -I$(HERE)include -I$(SCMI_FOLDER)/include -I$(SCMI_FOLDER)/ports/tf-a ${PLAT_INCLUDES}
$(eval $(call add_define,PLAT_XLAT_TABLES_DYNAMIC))

SCMI_PORT_BOARD := $(HERE)board.c $(HERE)tables.c
SCMI_PORT_DEFINES := SCMI_PORT_DOMAINS=8 SCMI_PORT_CLOCKS=8 SCMI_PORT_RATES=64
SCMI_PORT_TRACE ?= 0
include $(SCMI_FOLDER)/ports/tf-a/port.mk
