"""The settings of the lldpds that send frames for try-details.py and try-lldpctl.py."""

# the lldpcli commands that configure each sender, by the sender's name
SENDERS = {
    "lldpd-pse": (
        "configure ports peer0 dot3 power pse supported enabled paircontrol powerpairs spare class class-3 type 2"
        " source primary priority high requested 20000 allocated 15000",
        "configure med location elin number 9115551212"),
    "lldpd-pd": (
        "configure ports peer0 dot3 power pd supported enabled powerpairs signal class class-4 type 1 source pse"
        " priority critical requested 6500 allocated 0",
        "configure ports peer0 med power pd source pse priority high value 5000",
        "configure med location coordinate latitude 48.85667N longitude 2.2014W altitude 117.5 m datum WGS84"),
    "lldpd-policies": (
        "configure ports peer0 med policy application voice tagged vlan 500 priority voice dscp 46",
        "configure ports peer0 med policy application guest-voice unknown",
        "configure ports peer0 med policy application streaming-video vlan priority-tagged priority video dscp 34",
        "configure med power pse source primary priority low value 15400"),
    "lldpd-place": (
        "configure med location address country US language en_US city Albany street \"Main Street\" number 7 room 9",
        "configure inventory hardware-revision \"HW rev B\"",
        "configure inventory firmware-revision \"FW 9\"",
        "configure inventory serial-number \"SN-0001\"",
        "configure inventory manufacturer \"Example Ltd\"",
        "configure inventory model \"Phone 7\"",
        "configure inventory asset \"asset-42\""),
    "lldpd-custom": (
        "configure lldp custom-tlv add oui 00,80,c2 subtype 1 oui-info 00,78",
        "configure lldp custom-tlv add oui 00,80,c2 subtype 2 oui-info 06,00,7b",
        "configure lldp custom-tlv add oui 00,80,c2 subtype 3 oui-info 00,78,06,6f,66,66,69,63,65",
        "configure lldp custom-tlv add oui 00,80,c2 subtype 3 oui-info 00,79,05,67,75,65,73,74",
        "configure lldp custom-tlv add oui 00,80,c2 subtype 4 oui-info 05,88,cc,00,01,02",
        "configure lldp custom-tlv add oui 00,80,c2 subtype 7 oui-info 03,00,00,00,07",
        "configure lldp custom-tlv add oui 00,80,c2 subtype 11 oui-info 84,09",
        "configure lldp custom-tlv add oui 00,12,0f subtype 5 oui-info 00,11,00,12,00,13,00,14,00,15",
        "configure lldp custom-tlv add oui 00,12,0f subtype 4 oui-info 05,f2",
        "configure lldp custom-tlv add oui 33,44,55 subtype 44 oui-info 45,45,45,45,45"),
}
