// A gateway by which a network of private addresses shares the address 203.0.113.1. Each flow from the network gets a port of
// the pool 1024 to 65535; packets from outside get in as replies to a flow, and no others.
elementclass In {
  input -> kind :: Classifier(12/0800, -);
  kind[0] -> Strip(14) -> CheckIPHeader -> hop :: DecIPTTL -> output;
  kind[1] -> Discard;
  hop[1] -> Discard;
}
elementclass Out { $here, $there |
  input -> EtherEncap(0x0800, $here, $there) -> Queue(200) -> output;
}

nat :: IPRewriter(pattern 203.0.113.1 1024-65535 - - 0 1, drop);

FromDevice(lan, PROMISC true) -> In -> [0] nat;
FromDevice(wan, PROMISC true) -> In -> [1] nat;
nat[0] -> Out(02:00:00:00:00:0a, 02:00:00:00:00:1a) -> ToDevice(wan);
nat[1] -> Out(02:00:00:00:00:0b, 02:00:00:00:00:1b) -> ToDevice(lan);
