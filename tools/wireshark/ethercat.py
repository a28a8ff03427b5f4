"""Mailbox frames on EtherCAT's wire, and the fields of Wireshark's mailbox dissector."""
import struct

NAME = "EtherCAT"
LINK, OPTIONS, LAYER = 1, (), "ecat_mailbox"
FPRD, FPWR = 4, 5
STATION, WRITE_MAILBOX, READ_MAILBOX = 0x1001, 0x1000, 0x1080
MAILBOX = 128

# Wireshark's fields by the names of document 01's layouts. A field on neither list fails the comparison.
FIELDS = {
    "length": "length", "address": "address", "priority": "priority", "type": "type", "counter": "counter",
    "coe.number": "number", "coe.type": "service", "coe.sdoreq": "specifier", "coe.sdores": "specifier",
    "coe.sdoccsid.sizeind": "size indicator", "coe.sdoscsiu_sizeind": "size indicator",
    "coe.sdoccsid.expedited": "expedited", "coe.sdoscsiu_expedited": "expedited",
    "coe.sdoccsid.size0": "size, low bit", "coe.sdoscsiu_size0": "size, low bit",
    "coe.sdoccsid.size1": "size, high bit", "coe.sdoscsiu_size1": "size, high bit",
    "coe.sdoccsid.complete": "complete access", "coe.sdoccsiu_complete": "complete access",
    "coe.sdoscsiu_complete": "complete access", "coe.sdoidx": "index", "coe.sdosub": "sub-index", "coe.abortcode": "abort code",
    "coe.sdolength": "complete size", "coe.sdodata": "data", "coe.dsoldata": "data",
    "coe.sdoccsus_toggle": "toggle", "coe.sdoscsus_toggle": "toggle", "coe.sdoscsus_lastseg": "last", "coe.sdoscsus_bytes": "unused",
    "coe.sdoinfoopcode": "operation", "coe.sdoinfofrag": "fragments left", "coe.sdoinfolisttype": "list kind",
    "coe.sdoinfolist": "data", "coe.sdoinfoerrorcode": "abort code",
}
# Of none of them are Wireshark's own words compared.
WORDED = {}
# These hold others, which are compared one by one.
HOLDERS = {"coe", "coe.sdoccsid", "coe.sdoccsiu", "coe.sdoccsus", "coe.sdoscsiu", "coe.sdoscsus"}


def on_the_wire(frame, mailbox):
    """An Ethernet frame of one datagram that writes or reads a drive's mailbox, all of it."""
    command, place = (FPWR, WRITE_MAILBOX) if frame.call else (FPRD, READ_MAILBOX)
    datagram = struct.pack("<BBHHHH", command, 0, STATION, place, MAILBOX, 0) + mailbox + struct.pack("<H", 1)
    return b"\xff" * 6 + b"\x02\0\0\0\0\x01" + b"\x88\xa4" + struct.pack("<H", 0x1000 | len(datagram)) + datagram
