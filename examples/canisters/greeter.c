// Greets who is named, and counts how often. Arguments and answers are plain bytes, without Candid.
#define SYSTEM(name) __attribute__((import_module("ic0"), import_name(#name))) extern
SYSTEM(msg_arg_data_size) unsigned msg_arg_data_size(void);
SYSTEM(msg_arg_data_copy) void msg_arg_data_copy(void *to, unsigned offset, unsigned size);
SYSTEM(msg_reply_data_append) void msg_reply_data_append(const void *from, unsigned size);
SYSTEM(msg_reply) void msg_reply(void);
SYSTEM(trap) void trap(const char *text, unsigned size);

static unsigned count;
static char name[100];

__attribute__((export_name("canister_update greet"))) void greet(void) {
    unsigned size = msg_arg_data_size();
    if (size > sizeof name) trap("name too long", 13);
    msg_arg_data_copy(name, 0, size);
    count++;
    msg_reply_data_append("hello ", 6);
    msg_reply_data_append(name, size);
    msg_reply();
}

__attribute__((export_name("canister_query count"))) void counted(void) {
    msg_reply_data_append(&count, sizeof count);
    msg_reply();
}
