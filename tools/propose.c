/* The bench's own proposal for a job (request W-207). It reads an input of the checking program, of which only the job is looked at: what stands behind
 * the job pack may be missing. A job with links is asked the proposal that honours them, with at most the passes given; one without, the house proposal.
 *
 *     propose answer passes=NUMBER    prints the number and place that the library answers with
 *     propose words passes=NUMBER     prints which proposal was asked for, and after how many passes it was accepted; nothing of a job that cannot be read
 *     propose input passes=NUMBER     writes the checking program's input with that proposal
 *     propose advice passes=NUMBER    prints what can be done where no pass is accepted
 *     propose house                   writes the checking program's input with the house proposal, whatever links there are
 *     propose hint                    prints, of a job with links, how to ask for a proposal that honours them */
#include <inttypes.h>
#include <stdio.h>
#include <string.h>

#include "table.h"

/* A job and what the library proposes for it; answer and count are those of the call. */
struct proposed {
    struct table table;
    uint64_t passes, answer[BENCH_ANSWER_WORDS];
    uint8_t pack[BENCH_MOST_PROPOSAL_BYTES];
    size_t bytes;
};

enum what { ANSWER, WORDS, INPUT, ADVICE, HOUSE, HINT, WHATS };

/* ---- what the library answers */

static void ask_house(struct proposed *p)
{
    const struct table *t = &p->table;
    p->bytes = BENCH_PLACE(bench_propose(t->job, t->job_bytes, p->pack, sizeof p->pack, p->answer, BENCH_ANSWER_WORDS));
}

/* A job that cannot be read has the answer that reading it gave. */
static void ask(struct proposed *p, enum what what)
{
    const struct table *t = &p->table;
    if (!read_job(&p->table))
        memcpy(p->answer, t->answer, sizeof p->answer);
    else if (what == HOUSE || t->links == 0)
        ask_house(p);
    else
        p->bytes = BENCH_PLACE(bench_propose_linked(t->job, t->job_bytes, p->passes, p->pack, sizeof p->pack, p->answer, BENCH_ANSWER_WORDS));
}

static bool done(const struct proposed *p)
{
    return p->answer[0] == BENCH_DONE;
}

/* ---- words */

static const char *plural(uint64_t count, const char *one, const char *several)
{
    return count == 1 ? one : several;
}

static void print_words(const struct proposed *p)
{
    uint64_t links = (uint64_t)p->table.links;
    if (p->table.answer[0] != BENCH_DONE)
        return;
    if (links == 0) {
        printf("the job has no links: asked for the house proposal\n");
        return;
    }
    printf("the job has %" PRIu64 " link%s: asked for the proposal that honours %s, with at most %" PRIu64 " pass%s", links, plural(links, "", "s"),
           plural(links, "it", "them"), p->passes, plural(p->passes, "", "es"));
    if (done(p))
        printf("; it was accepted after %" PRIu64, p->answer[2]);
    printf("\n");
}

/* What the check says of the house proposal. */
static void say_house(struct proposed *p)
{
    const struct table *t = &p->table;
    uint64_t answer[BENCH_ANSWER_WORDS];
    ask_house(p);
    bench_check(t->job, t->job_bytes, p->pack, p->bytes, answer, BENCH_ANSWER_WORDS);
    if (answer[0] == BENCH_DONE)
        printf("it is accepted, with a loss F of %" PRIu64 " and a gap G of %" PRIu64 "\n", answer[2], answer[3]);
    else
        printf("it is refused with %" PRIu64 ", place %" PRIu64 "; ./run target/proposed says what holds it back\n", answer[0], answer[1]);
}

static void print_advice(struct proposed *p)
{
    begin_line("passes");
    if (p->passes < BENCH_MOST_PASSES)
        printf("more may help: %d are the most that can be allowed, passes=%d\n", BENCH_MOST_PASSES, BENCH_MOST_PASSES);
    else
        printf("%d are the most that can be allowed\n", BENCH_MOST_PASSES);
    begin_line("tolerance");
    printf("T is %" PRId64 ": with a larger one a table of a larger gap is accepted, as long as it breaks no link\n", p->table.tolerance);
    begin_line("house");
    printf("the house proposal, which ignores links, is in target/proposed: ");
    say_house(p);
}

static void print_hint(struct table *t)
{
    if (!read_job(t) || t->links == 0)
        return;
    begin_line("links");
    printf("the job has %" PRId64 ": ./run --propose FILE asks the bench for a proposal of its own that honours links\n", t->links);
}

/* ---- arguments */

/* Takes passes=NUMBER, or says what is wrong with it. */
static bool take_passes(struct proposed *p, const char *argument)
{
    static const char name[] = "passes=";
    if (strncmp(argument, name, sizeof name - 1) == 0 && take_digits(argument + sizeof name - 1, &p->passes))
        return true;
    fprintf(stderr, "propose: '%s' gives no number of passes: write passes=NUMBER, a whole number from 1 to %d in digits alone, as in passes=%d\n",
            argument, BENCH_MOST_PASSES, BENCH_MOST_PASSES);
    return false;
}

static enum what what_of(const char *name)
{
    static const char *const names[WHATS] = {"answer", "words", "input", "advice", "house", "hint"};
    enum what what = ANSWER;
    while (what < WHATS && strcmp(name, names[what]) != 0)
        what++;
    return what;
}

/* False where there is no proposal to write, which is said. */
static bool write_proposal(const struct proposed *p)
{
    if (done(p))
        write_input(p->table.job, p->table.job_bytes, p->pack, p->bytes);
    else
        fprintf(stderr, "propose: there is no proposal for this job: it is refused with %" PRIu64 ", place %" PRIu64 "\n", p->answer[0], p->answer[1]);
    return done(p);
}

static bool tell(struct proposed *p, enum what what)
{
    if (what == HINT) {
        print_hint(&p->table);
        return true;
    }
    ask(p, what);
    if (what == ANSWER)
        printf("%" PRIu64 " %" PRIu64 "\n", p->answer[0], p->answer[1]);
    else if (what == WORDS)
        print_words(p);
    else if (what == ADVICE && p->answer[0] == BENCH_NO_PASS_ACCEPTED)
        print_advice(p);
    else if (what != ADVICE)
        return write_proposal(p);
    return true;
}

int main(int count, char **arguments)
{
    static struct proposed proposed;
    enum what what = count < 2 ? WHATS : what_of(arguments[1]);
    if (what == WHATS || count != (what < HOUSE ? 3 : 2)) {
        fprintf(stderr, "propose: takes answer, words, input or advice and then passes=NUMBER, or house or hint alone\n");
        return 1;
    }
    if ((count == 3 && !take_passes(&proposed, arguments[2])) || !tell(&proposed, what))
        return 1;
    if (fflush(stdout) != 0 || ferror(stdout)) {
        fprintf(stderr, "propose: what is to be written cannot be; make room and try again\n");
        return 1;
    }
    return 0;
}
