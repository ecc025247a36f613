// Two networks of a branch office and its way out. Nothing goes to port 22, and the office can't reach the lab.
elementclass In {
  input -> kind :: Classifier(12/0800, -);
  kind[0] -> Strip(14) -> CheckIPHeader -> output;
  kind[1] -> Discard;
}
elementclass Out { $here, $there |
  input -> EtherEncap(0x0800, $here, $there) -> Queue(200) -> output;
}

FromDevice(office, PROMISC true) -> In -> IPFilter(deny dst port 22, deny dst net 10.0.1.0/24, allow all) -> hop :: DecIPTTL;
FromDevice(lab, PROMISC true) -> In -> IPFilter(deny dst port 22, allow all) -> hop;

hop -> routes :: LookupIPRoute(10.0.0.0/24 0, 10.0.1.0/24 1, 0.0.0.0/0 203.0.113.254 2);
hop[1] -> Discard;

routes[0] -> Out(02:00:00:00:00:0a, 02:00:00:00:00:1a) -> ToDevice(office);
routes[1] -> Out(02:00:00:00:00:0b, 02:00:00:00:00:1b) -> ToDevice(lab);
routes[2] -> Out(02:00:00:00:00:0c, 02:00:00:00:00:1c) -> ToDevice(uplink);
