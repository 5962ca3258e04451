// Nanoseconds a remove and an insert of ns-3's map scheduler with 10, 100 and 1,000 pending, for bench/lists.c's FEL beside it.
#include <cstdint>
#include <cstdio>
#include <ctime>
#include <ns3/map-scheduler.h>

static uint64_t seed = 88172645463325252ull;

static double now() {
    timespec t;
    clock_gettime(CLOCK_PROCESS_CPUTIME_ID, &t);
    return t.tv_sec * 1e9 + t.tv_nsec;
}

static uint32_t draw() {
    seed ^= seed << 13;
    seed ^= seed >> 7;
    seed ^= seed << 17;
    return (uint32_t)(seed >> 20) % 1000000;
}

int main() {
    const int turns = 2000000;
    for (int pending = 10; pending <= 1000; pending *= 10) {
        ns3::Ptr<ns3::MapScheduler> list = ns3::CreateObject<ns3::MapScheduler>();
        uint32_t uid = 0;
        for (int i = 0; i < pending; i++)
            list->Insert({nullptr, {draw(), ++uid, 0}});
        double start = now();
        for (int i = 0; i < turns; i++) {
            ns3::Scheduler::Event e = list->RemoveNext();
            e.key.m_ts += draw();
            e.key.m_uid = ++uid;
            list->Insert(e);
        }
        printf("ns-3, map scheduler, %4d pending: %7.1f ns a remove and insert\n", pending, (now() - start) / turns);
    }
}
