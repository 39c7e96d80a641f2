// A work list. Script 1 makes six jobs; scripts 2 and 3 take them. Who takes a job claims it by `cas` first, so no job is
// done twice and none is left out. Which worker does which job differs from run to run: a worker may print any of the six
// lines, also all or none, each in order; the two together print each line once, and `by` tells the worker that did.
let jobs = {};
for (let i = 0; i < 6; i += 1) jobs[i] = {state: "new", size: (i + 1) * 1000};
shared.next = 0;
shared.jobs = jobs;
%%
// This worker waits for the list: it is there with all its jobs, since script 1 puts it last.
while (shared.jobs === undefined) {}

let n = shared.next;
while (n < 6) {
    // Only one of the two finds that `next` is still n, and makes it n + 1.
    if (cas(shared, "next", n, n + 1) === n) {
        let job = shared.jobs[n];
        for (let i = 0; i < job.size; i += 1) {}
        job.state = "done";
        job.by = 2;
        print(n, job.size);
    }
    n = shared.next;
}
%%
// The other worker.
while (shared.jobs === undefined) {}

let n = shared.next;
while (n < 6) {
    if (cas(shared, "next", n, n + 1) === n) {
        let job = shared.jobs[n];
        for (let i = 0; i < job.size; i += 1) {}
        job.state = "done";
        job.by = 3;
        print(n, job.size);
    }
    n = shared.next;
}
