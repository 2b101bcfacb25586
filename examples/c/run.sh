#!/bin/sh
# Proves the static libraries, and builds and runs the examples with cc. What recorded.c records has to be a run of both ends; a guest that raises no signal shows in its record once its peer looks for one.
cd "$(dirname "$0")/../../crates" || exit 2
for name in vmbus_c vmbus_control_c vmbus_net_c vmbus_stor_c vmbus_ring_c ring_call_plan_c page_call_plan_c; do
    (cd $name && rt lib) || exit 1
done
cd ../examples/c || exit 2
libraries="../../crates/vmbus_c/out/libvmbus_c.a ../../crates/vmbus_control_c/out/libvmbus_control_c.a ../../crates/vmbus_net_c/out/libvmbus_net_c.a ../../crates/vmbus_stor_c/out/libvmbus_stor_c.a ../../crates/vmbus_ring_c/out/libvmbus_ring_c.a ../../crates/ring_call_plan_c/out/libring_call_plan_c.a ../../crates/page_call_plan_c/out/libpage_call_plan_c.a"
cc -O2 -Wall -Wextra -o example example.c $libraries && ./example || exit 1
cc -O2 -Wall -Wextra -o two_processes two_processes.c $libraries && ./two_processes || exit 1
cc -O2 -Wall -Wextra -o lent_page lent_page.c $libraries && ./lent_page || exit 1
cc -O2 -Wall -Wextra -o codecs codecs.c $libraries && ./codecs ../../crates/linux_messages/stdin ../../crates/linux_gpadls/stdin ../../crates/linux_packets/stdin linux_network.txt || exit 1
cc -O2 -Wall -Wextra -o storage_guest storage_guest.c $libraries && cc -O2 -Wall -Wextra -o storage_host storage_host.c $libraries && ./storage_host ./storage_guest || exit 1
cc -O2 -Wall -Wextra -pthread -o recorded recorded.c $libraries && ./recorded | ../../vmbus trace | grep '^run steps' || exit 1
./recorded faulty | ../../vmbus trace
