/* The tables that there are; the FADT names two more. */
#include "places.h"
                    Signature : "XSDT"
                 Table Length : 00000000
                     Revision : 01
                     Checksum : 00
                       Oem ID : "BTCORE"
                 Oem Table ID : "MONITOR "
                 Oem Revision : 00000001
              Asl Compiler ID : "INTL"
        Asl Compiler Revision : 00000000

       ACPI Table Address   0 : FACP_PLACE
       ACPI Table Address   1 : APIC_PLACE
