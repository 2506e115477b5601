/* No device is named: the kernel knows a PC's serial port, timer and interrupt controllers. */
DefinitionBlock ("", "DSDT", 2, "BTCORE", "MONITOR", 1)
{
    Name (\_S5, Package () { 0, 0, 0, 0 }) /* the machine can be switched off, by a sleep of type 0 */
}
