# TF-A's QEMU platform with one service more: SCMI.
#
#   SERVER     library: answered by ports/tf-a; tfa: by TF-A's own server, to compare with; none: no service
#   MEASURED   1: prints nothing, has no mailbox, and says what an SMC costs
#   LIBRARY    libscmi_c.a for aarch64        ROOT   the repository, and PORT its ports/tf-a

HERE := $(dir $(lastword $(MAKEFILE_LIST)))
SERVER ?= library
MEASURED ?= 0

# The secure timer interrupts EL3.
GICV2_G0_FOR_EL3 := 1

include plat/qemu/qemu/platform.mk

PLAT_INCLUDES := -I$(HERE)include -I$(HERE) -I$(ROOT)/include -I$(PORT) ${PLAT_INCLUDES}
$(eval $(call add_define,PLAT_XLAT_TABLES_DYNAMIC))
$(eval $(call add_define_val,SCMI_MEASURED,$(MEASURED)))

ifneq (${SERVER},none)
BL31_SOURCES += $(addprefix $(HERE),service.c hardware.c $(if $(filter 1,$(MEASURED)),measured/measure.c,mailbox.c))
endif
ifeq (${SERVER},tfa)
PLAT_INCLUDES += -Idrivers/scmi-msg
BL31_SOURCES += $(HERE)measured/tfa.c $(addprefix drivers/scmi-msg/,base.c clock.c entry.c power_domain.c smt.c)
endif
ifeq (${SERVER},library)
SCMI_LIBRARY := $(LIBRARY)
SCMI_PORT_BOARD := $(HERE)board.c $(if $(filter 1,$(MEASURED)),$(HERE)measured/library.c)
SCMI_PORT_TRACE := $(if $(filter 1,$(MEASURED)),0,1)
SCMI_PORT_DEFINES := SCMI_PORT_SHARED=1 SCMI_PORT_AGENTS=3 SCMI_PORT_DOMAINS=4 SCMI_PORT_CLOCKS=3 SCMI_PORT_RATES=5 \
	SCMI_PORT_DEVICES=2
include $(PORT)/port.mk
endif
