/* The interrupt controllers, where KVM has them. Each interrupt of a PC comes at the I/O APIC's input of the same number, so
 * nothing is overridden. examples/kvm/build puts the processors behind it, as many as there may be. */
                    Signature : "APIC"
                 Table Length : 00000000
                     Revision : 05
                     Checksum : 00
                       Oem ID : "BTCORE"
                 Oem Table ID : "MONITOR "
                 Oem Revision : 00000001
              Asl Compiler ID : "INTL"
        Asl Compiler Revision : 00000000

           Local Apic Address : FEE00000
        Flags (decoded below) : 00000000
          PC-AT Compatibility : 1

                Subtable Type : 01
                       Length : 0C
                  I/O Apic ID : 00
                     Reserved : 00
                      Address : FEC00000
                    Interrupt : 00000000
