/* What the stand-in modem answers, by service and message: the TLVs behind the Result TLV, each a kind and its
   bytes, in the forms of libqmi's data/qmi-service-*.json. Numbers are little endian. */
enum { WDS = 1, NAS = 3 };

struct tlv { unsigned char kind, count; const char *bytes; };
#define TLV(kind, bytes) { kind, sizeof bytes - 1, bytes }

static const struct answer { unsigned char service, name; struct tlv tlvs[10]; } answers[] = {
    /* Get Version Info: each service with its major and its minor version */
    { CTL, 0x21, { TLV(0x01, "\x05" "\x00\x01\x00\x05\x00" "\x01\x01\x00\x24\x00" "\x02\x01\x00\x0E\x00"
                             "\x03\x01\x00\x19\x00" "\x05\x01\x00\x0A\x00") } },
    { CTL, 0x27, { TLV(0, "") } }, /* Sync */

    /* Get Capabilities: 50 and 100 Mbit/s, packet service, a SIM, GSM and UMTS and LTE */
    { DMS, 0x20, { TLV(0x01, "\x80\xF0\xFA\x02" "\x00\xE1\xF5\x05" "\x02" "\x02" "\x03\x04\x05\x08") } },
    { DMS, 0x21, { TLV(0x01, "Sierra Wireless, Incorporated") } }, /* Get Manufacturer */
    { DMS, 0x22, { TLV(0x01, "EM7455") } },                        /* Get Model */
    { DMS, 0x23, { TLV(0x01, "SWI9X30C_02.33.03.00") } },          /* Get Revision */
    /* Get IDs: ESN, IMEI, MEID, version of the IMEI's software */
    { DMS, 0x25, { TLV(0x10, "0"), TLV(0x11, "353533123456787"), TLV(0x12, "35353312345678"), TLV(0x13, "78") } },
    /* Get Operating Mode: online, and no switch forbids it */
    { DMS, 0x2D, { TLV(0x01, "\x00"), TLV(0x11, "\x00") } },

    /* Get Signal Strength: -67 dBm in LTE; UMTS at -71; by radio their RSSI, Ec/Io and error rates; Io, RSRQ, SNR, RSRP */
    { NAS, 0x20, { TLV(0x01, "\xBD\x08"), TLV(0x10, "\x01\x00" "\xB9\x05"), TLV(0x11, "\x02\x00" "\x43\x08" "\x47\x05"),
                   TLV(0x12, "\x01\x00" "\x09\x05"), TLV(0x13, "\x96\xFF\xFF\xFF"), TLV(0x15, "\x01\x00" "\x02\x00\x05"),
                   TLV(0x16, "\xF5\x08"), TLV(0x17, "\x7C\x00"), TLV(0x18, "\x9F\xFF") } },
    /* Get Serving System: registered in LTE, both domains attached, a 3GPP network; not roaming; LTE data; the network 001-01;
       not roaming in LTE; an hour east, no summer time; area 65534, cell 29318400, tracking area 4711 */
    { NAS, 0x24, { TLV(0x01, "\x01\x01\x01\x02" "\x01\x08"), TLV(0x10, "\x01"), TLV(0x11, "\x01\x0B"),
                   TLV(0x12, "\x01\x00\x01\x00" "\x0B" "Example Net"), TLV(0x15, "\x01\x08\x01"), TLV(0x1A, "\x04"),
                   TLV(0x1B, "\x00"), TLV(0x1C, "\xFE\xFF"), TLV(0x1D, "\x00\x5D\xBF\x01"), TLV(0x24, "\x67\x12") } },
    /* Get Home Network: 001-01, and the MNC has two digits */
    { NAS, 0x25, { TLV(0x01, "\x01\x00\x01\x00" "\x0B" "Example Net"), TLV(0x12, "\x01\x00") } },

    { WDS, 0x22, { TLV(0x01, "\x02") } }, /* Get Packet Service Status: connected */
};
