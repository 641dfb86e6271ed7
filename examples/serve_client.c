/* A client of NLM version 4 by rpcgen and libtirpc: two owners contend for bytes 0 to 9 of the first exported file. */
#include <stdio.h>
#include <stdlib.h>
#include <string.h>
#include <arpa/inet.h>
#include <rpc/rpc.h>
#include "nlm4.h"

static CLIENT *client;

/* The handle of the first file. */
static char first_file[8] = {'X', 'L', 'K', '1', 0, 0, 0, 1};

static struct nlm_lock range(char *caller)
{
    struct nlm_lock lock = {0};
    lock.caller_name = caller;
    lock.fh.n_bytes = first_file;
    lock.fh.n_len = sizeof first_file;
    lock.oh.n_bytes = caller;
    lock.oh.n_len = strlen(caller);
    lock.svid = 7;
    lock.l_offset = 0;
    lock.l_len = 10;
    return lock;
}

static void tell(const char *what, char *caller, nlm_res *result)
{
    if (result == NULL) {
        clnt_perror(client, what);
        exit(1);
    }
    printf("%s %s: %d\n", what, caller, (int)result->stat.stat);
}

static void lock(char *caller)
{
    nlm_lockargs args = {0};
    args.exclusive = TRUE;
    args.alock = range(caller);
    tell("lock", caller, nlm_lock_4(&args, client));
}

static void unlock(char *caller)
{
    nlm_unlockargs args = {0};
    args.alock = range(caller);
    tell("unlock", caller, nlm_unlock_4(&args, client));
}

int main(int count, char **words)
{
    struct sockaddr_in address = {0};
    int descriptor = RPC_ANYSOCK;
    if (count != 2)
        return 2;
    address.sin_family = AF_INET;
    address.sin_port = htons(atoi(words[1]));
    address.sin_addr.s_addr = htonl(INADDR_LOOPBACK);
    client = clnttcp_create(&address, NLM_PROG, NLM_VERS, &descriptor, 0, 0);
    if (client == NULL) {
        clnt_pcreateerror("connect");
        return 1;
    }
    lock("a");
    lock("b");
    unlock("a");
    lock("b");
    unlock("b");
    clnt_destroy(client);
    return 0;
}
