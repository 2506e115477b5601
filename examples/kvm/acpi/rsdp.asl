/* The root pointer. There is no RSDT: who looks for one has no 64-bit addresses, which ACPI 2.0 brought. */
#include "places.h"
                    Signature : "RSD PTR "
                     Checksum : 00
                       Oem ID : "BTCORE"
                     Revision : 02
                 RSDT Address : 00000000
                       Length : 00000024
                 XSDT Address : XSDT_PLACE
            Extended Checksum : 00
                     Reserved : 000000
