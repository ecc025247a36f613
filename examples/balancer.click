// A balancer: connections to the address 198.51.100.80 go to three servers in turn, and what the servers answer comes from that
// address. All packets of a connection go to the same server.
elementclass In {
  input -> kind :: Classifier(12/0800, -);
  kind[0] -> Strip(14) -> CheckIPHeader -> hop :: DecIPTTL -> output;
  kind[1] -> Discard;
  hop[1] -> Discard;
}
elementclass Out { $here, $there |
  input -> EtherEncap(0x0800, $here, $there) -> Queue(200) -> output;
}

servers :: RoundRobinIPMapper(- - 192.0.2.1 80 0 1, - - 192.0.2.2 80 0 1, - - 192.0.2.3 80 0 1);
balance :: IPRewriter(servers, drop);

FromDevice(wan, PROMISC true) -> In -> IPFilter(allow dst host 198.51.100.80 && dst port 80, deny all) -> [0] balance;
FromDevice(rack, PROMISC true) -> In -> [1] balance;
balance[0] -> Out(02:00:00:00:00:0a, 02:00:00:00:00:1a) -> ToDevice(rack);
balance[1] -> Out(02:00:00:00:00:0b, 02:00:00:00:00:1b) -> ToDevice(wan);
