#!/usr/bin/env python3
"""Bridges and hosts that are wrong in one place, each by one edit of gatt.c or radio.c. The trial has to see every one of them.

    wrong.py names              their names, a line each
    wrong.py make NAME FOLDER   puts the file with the edit into that folder, and prints which of the two it is
"""
import pathlib
import sys

here = pathlib.Path(__file__).parent

# name: the file, what stands there exactly once, what stands there instead
WRONG = {
    "a host's fault goes on air": (
        "gatt.c",
        "    note_fault(gatt, number);\n    return GATT_UNLIKELY_ERROR;",
        "    return number & 0xFFu;",
    ),
    "a fault is not noted": ("gatt.c", "        gatt->host->fault(gatt->host->radio, number);", "        ;"),
    "what was taken is gone where the radio has no room": (
        "gatt.c",
        "        for (row = 0; characteristics[row].number",
        "        gatt->desk = gatt->taken;\n        for (row = 0; characteristics[row].number",
    ),
    "what was taken is taken again": ("gatt.c", "        gatt->desk = gatt->taken;", "        return;"),
    "notifications are not cut": ("gatt.c", "at_most(served.length, gatt->links[served.client].mtu - 3u)", "served.length"),
    "notifications are cut as reads are": ("gatt.c", "[served.client].mtu - 3u", "[served.client].mtu - 1u"),
    "notifications are cut by the least ATT_MTU": ("gatt.c", "[served.client].mtu - 3u", "[served.client].mtu * 0u + 20u"),
    "reads are not cut": ("gatt.c", "at_most(*length, gatt->links[client].mtu - 1u)", "*length"),
    "reads are cut as notifications are": ("gatt.c", "[client].mtu - 1u", "[client].mtu - 3u"),
    "an offset is not looked at": ("gatt.c", "characteristics[at.row].number, offset, value", "characteristics[at.row].number, 0, value"),
    "a result goes to the first connection": ("gatt.c", "gatt->links[served.client].connection", "gatt->links[0].connection"),
    "a notification has the other service's handle": (
        "gatt.c",
        "gatt->handles[served.service][row].value",
        "gatt->handles[1u - served.service][row].value",
    ),
    "a notification has the CCCD's handle": (
        "gatt.c",
        "gatt->handles[served.service][row].value",
        "gatt->handles[served.service][row].cccd",
    ),
    "both services are one": (
        "gatt.c",
        "mcs_desk_write(&gatt->desk, client, at.service,",
        "mcs_desk_write(&gatt->desk, client, MCS_GENERIC,",
    ),
    "time passes for the generic player alone": (
        "gatt.c",
        "mcs_desk_advance(&gatt->desk, service, hundredths)",
        "mcs_desk_advance(&gatt->desk, MCS_GENERIC, service == MCS_GENERIC ? hundredths : 0)",
    ),
    "time is multiplied by the playback speed": (
        "gatt.c",
        "mcs_desk_advance(&gatt->desk, service, hundredths)",
        "mcs_desk_advance(&gatt->desk, service, gatt->desk.state[MCS_AT_SERVICE(service) + MCS_IN_SPEED] == 64 ? 2u * hundredths : hundredths)",
    ),
    "the core is not told of encryption": (
        "gatt.c",
        "mcs_desk_connect(&gatt->desk, client, WHOLE_VALUES, encrypted)",
        "mcs_desk_connect(&gatt->desk, client, WHOLE_VALUES, 0)",
    ),
    "encryption that is renewed drops the subscriptions": (
        "gatt.c",
        "client < MCS_CLIENTS && gatt->links[client].encrypted != encrypted",
        "client < MCS_CLIENTS",
    ),
    "every connection counts as encrypted": (
        "gatt.c",
        "mcs_desk_connect(&gatt->desk, client, WHOLE_VALUES, 0)",
        "mcs_desk_connect(&gatt->desk, client, WHOLE_VALUES, 1)",
    ),
    "encryption that ends is not told": (
        "gatt.c",
        "client < MCS_CLIENTS && gatt->links[client].encrypted != encrypted",
        "client < MCS_CLIENTS && encrypted && !gatt->links[client].encrypted",
    ),
    "an unencrypted device is told what is wrong with a CCCD's value": (
        "gatt.c",
        "    if (!gatt->links[client].encrypted) {\n        return MCS_NOT_ENCRYPTED;\n    }\n",
        "",
    ),
    "the ATT_MTU of another connection is set": ("gatt.c", "gatt->links[client].mtu = mtu;", "gatt->links[0].mtu = mtu;"),
    "an ATT_MTU below 23 is taken": ("gatt.c", "client < MCS_CLIENTS && mtu >= GATT_LEAST_MTU", "client < MCS_CLIENTS"),
    "a new connection has the ATT_MTU of the one before": (
        "gatt.c",
        "    gatt->links[client].mtu = GATT_LEAST_MTU;\n",
        "    gatt->links[client].mtu += gatt->links[client].mtu == 0 ? GATT_LEAST_MTU : 0;\n",
    ),
    "a fifth connection takes the place of the fourth": (
        "gatt.c",
        "    if (client == MCS_CLIENTS) {\n        return false;\n    }\n",
        "    client = client < MCS_CLIENTS ? client : MCS_CLIENTS - 1u;\n",
    ),
    "the core is not told of a disconnection": (
        "gatt.c",
        "        gatt->links[client].used = false;\n        note_fault(gatt, mcs_desk_disconnect(&gatt->desk, client));",
        "        gatt->links[client].used = false;",
    ),
    "the place of a connection that ended stays taken": ("gatt.c", "        gatt->links[client].used = false;\n", ""),
    "a CCCD takes indications": ("gatt.c", "value[0] > 1 || value[1] != 0", "value[1] != 0"),
    "the second octet of a CCCD is not looked at": ("gatt.c", "value[0] > 1 || value[1] != 0", "value[0] > 1"),
    "a CCCD of any length is taken": ("gatt.c", "    if (length != CCCD_OCTETS) {\n        return MCS_BAD_LENGTH;\n    }\n", ""),
    "a subscription cannot be ended": ("gatt.c", ": mcs_desk_unsubscribe(", ": mcs_desk_subscribe("),
    "a CCCD reads as the generic service's": ("gatt.c", "MCS_AT_SERVICE(at->service) +", "MCS_AT_SERVICE(MCS_GENERIC) +"),
    "a CCCD reads as the first client's": ("gatt.c", "MCS_IN_ACCOUNT(client) +", "MCS_IN_ACCOUNT(0) +"),
    "a CCCD reads by its row, and not by its slot": ("gatt.c", "(characteristics[row].may & MCS_MAY_NOTIFY) != 0 ? 1u : 0u", "1u"),
    "handle 0 is that of CCCDs that are not there": ("gatt.c", "handle != 0 && (at->cccd", "(at->cccd"),
    "a writable value has no Write Without Response": ("gatt.c", "GATT_WRITE | GATT_WRITE_WITHOUT_RESPONSE", "GATT_WRITE"),
    "two UUIDs are exchanged": (
        "gatt.c",
        "{UUID_##number, number, properties}",
        "{UUID_##number == 0x2B97u ? 0x2B98u : UUID_##number == 0x2B98u ? 0x2B97u : UUID_##number, number, properties}",
    ),
    "the services' UUIDs are exchanged": (
        "gatt.c",
        "host->add_service(host->radio, services[service])",
        "host->add_service(host->radio, services[1u - service])",
    ),
    "a restored state keeps its connections": (
        "gatt.c",
        "        (void)mcs_desk_disconnect(&gatt->desk, client); /* or it was not connected */\n",
        "",
    ),
    "a stored state is not checked": ("gatt.c", "!= MCS_OK) {\n        return false;", "!= MCS_OK) {\n        return true;"),
    "a state is started anew in place of the stored one": (
        "gatt.c",
        "    memcpy(gatt->desk.state, state, MCS_STATE_OCTETS);\n",
        "    (void)state;\n",
    ),
    "kept CCCDs are not told to the core": (
        "radio.c",
        "            (void)gatt_write(radio->gatt, RADIO_CONNECTION(device), handle, on, 2);",
        "            (void)on;",
    ),
    "a Write Command is answered": ("radio.c", "        answer.length = 0;\n", "        answer.octets[0] = ATT_WRITE_RESPONSE;\n"),
    "the answer comes behind the notifications": (
        "radio.c",
        "    if (code != 0) {\n        answer.octets[0] = ATT_ERROR;",
        "    radio_tells(radio);\n    if (code != 0) {\n        answer.octets[0] = ATT_ERROR;",
    ),
    "nothing is told when there is room again": (
        "radio.c",
        "    send_oldest(radio, device);\n    radio_tells(radio);",
        "    send_oldest(radio, device);",
    ),
}


def make(name, folder):
    file, there, instead = WRONG[name]
    text = (here / file).read_text()
    if text.count(there) != 1:
        sys.exit(f"wrong.py: {name}: what the edit changes stands {text.count(there)} times in {file}")
    (pathlib.Path(folder) / file).write_text(text.replace(there, instead))
    print(file)


if sys.argv[1:] == ["names"]:
    print("\n".join(WRONG))
elif len(sys.argv) == 4 and sys.argv[1] == "make":
    make(sys.argv[2], sys.argv[3])
else:
    sys.exit(__doc__)
