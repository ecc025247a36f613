FromDevice(lan) -> c :: Classifier(12/0800, -);
c[0] -> ToDevice(wan);
c[1] -> Discard;
