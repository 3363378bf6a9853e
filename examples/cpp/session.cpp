// session.cpp: a step with two tasks through mvs.hpp. It prints each reply, and then what the job step task owns.
#include <mvs.hpp>

#include <cstdio>

static void print(const char *what, const mvs::Reply &reply) {
    std::printf("%s: %s, %s %08X %u\n", what, mvs_status_name(reply.status), mvs_event_name(reply.event.kind), unsigned(reply.event.address),
                unsigned(reply.event.length));
}

int main() {
    mvs::Session session;
    print("region", session.begin("JOB", 2));
    mvs_ask obtain = mvs::ask(MVS_ASK_OBTAIN, "JOB");
    obtain.form = MVS_FORM_RC, obtain.subpool = 7, obtain.length = 100;
    mvs::Reply area = session.request(obtain);
    print("obtain", area);
    mvs_ask attach = mvs::ask(MVS_ASK_ATTACH, "JOB", "SUB");
    attach.given_low = 1u << 7;
    print("attach", session.request(attach));
    print("write", {session.write(area.event.address, {1, 2, 3}) ? MVS_STATUS_OK : MVS_STATUS_NO_ACCESS, {}});
    obtain.location = 3;
    mvs::Reply refused = session.request(obtain);
    std::printf("refused: %s\n", mvs_field_name(refused.event.code));
    mvs::Session moved = std::move(session);
    for (const mvs_subpool_line &line : moved.subpools("SUB")) std::printf("SUB has %u: %u bytes\n", unsigned(line.number), unsigned(line.plain));
    std::printf("%zu tasks, %zu pools\n", moved.tasks().size(), moved.pools().size());
    mvs::Session copy = moved.clone();
    mvs_ask abend = mvs::ask(MVS_ASK_ABEND, "JOB");
    print("abend", moved.request(abend));
    for (const std::string &name : moved.fallen()) std::printf("%s ended too\n", name.c_str());
    std::printf("%zu tasks, in the copy %zu\n", moved.tasks().size(), copy.tasks().size());
    return session.line("JOB RETURN").status == MVS_STATUS_NO_SESSION ? 0 : 1;
}
