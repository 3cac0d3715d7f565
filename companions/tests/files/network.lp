\ Two stages with a budget of failures, told by network.quant.
Minimize
 cost: 4 lease(1) + 4 lease(2) + 9 lease(3) + use(1) + use(2)
Subject To
 sent: use(1) + use(2) + use(3) >= 1
 lease(1) - use(1) >= 0
 use(2) - lease(2) <= 0
 use(3) - lease(3) <= 0
 works1: use(1) + fail,1 <= 1
 works2: use(2) + fail,2 <= 1
 works3: use(3) + fail,3 <= 1
 fail,1 + fail,2 + fail,3 <= 1
Binaries
 lease(1) lease(2) lease(3) use(1) use(2) use(3) fail,1 fail,2 fail,3
End
