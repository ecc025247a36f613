FromDevice(lan) -> Strip(14) -> CheckIPHeader -> DecIPTTL
    -> EtherEncap(0x0800, 02:00:00:00:00:0a, 02:00:00:00:00:0b) -> ToDevice(wan);
