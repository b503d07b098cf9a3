/* Two services write a log, and a reader follows it: services FOLDER. Service 0 is killed in the midst of its messages and started again: it
 * asks the log which number comes next, and each message is there once. */
#include <csignal>
#include <iostream>
#include <rme_log.hpp>
#include <sys/wait.h>
#include <unistd.h>

static const uint64_t MESSAGES = 10;

static void serve(const std::string &folder, uint64_t index, bool dies)
{
    rme::log log(folder, index);
    const uint64_t first = log.next();
    if (first > 1)
        std::cout << "service " << index << " goes on with message " << first << std::endl;
    for (uint64_t number = first; number <= MESSAGES; number++) {
        log.append(number, {100 * index + number});
        if (dies && number == MESSAGES / 2)
            raise(SIGKILL);
    }
}

static pid_t start(const std::string &folder, uint64_t index, bool dies)
{
    const pid_t child = fork();
    if (child == 0) {
        serve(folder, index, dies);
        _exit(0);
    }
    return child;
}

int main(int count, char **word)
{
    const std::string folder = count > 1 ? word[1] : "log";
    int status = 0;
    rme::create_log(folder, 2, 4, 1); /* 2 processes, segments of 4 messages of one word */
    const pid_t killed = start(folder, 0, true), other = start(folder, 1, false);
    waitpid(killed, &status, 0);
    std::cout << "service 0 was killed: " << (WIFSIGNALED(status) ? "yes" : "no") << std::endl;
    waitpid(start(folder, 0, false), &status, 0);
    waitpid(other, &status, 0);
    rme::log_reader reader(folder, "audit");
    uint64_t last[2] = {0, 0};
    for (const rme_message &message : reader) {
        if (message.number != ++last[message.sender] || message.value[0] != 100 * message.sender + message.number)
            return 1;
        reader.keep(); /* its effects are done */
    }
    std::cout << "read " << last[0] << " messages of service 0 and " << last[1] << " of service 1" << std::endl;
    std::cout << "segments are dropped before " << rme::drop(folder) << std::endl;
    return 0;
}
