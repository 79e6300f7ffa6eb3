/* TF-A's name of this file, which the service of ports/tf-a includes: OP-TEE has __unused. */
#include <compiler.h>
