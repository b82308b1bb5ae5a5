// The calls of the server, relative to the page's own address, which has the key.

const GONE = "The server doesn't answer. Start ./line page again.";

// What the server answers to a call; its refusal as an error.
async function call(path, method = "GET", body = undefined) {
  let answer;
  try {
    answer = await fetch(path, { method, body: body && JSON.stringify(body), keepalive: method === "DELETE" });
  } catch {
    throw new Error(GONE);
  }
  const said = await answer.json();
  if (!answer.ok) throw new Error(said.refused);
  return said;
}

export const start = () => call("start");

export const begin = async (question) => (await call("jobs", "POST", question)).job;

export const stop = (job) => call(`jobs/${job}/stop`, "POST", {});

// Forgetting a job is no more than tidiness: whoever has lost the server has lost its jobs too.
export const forget = (job) => call(`jobs/${job}`, "DELETE").catch(() => {});

export const fileAddress = (job, name) => `jobs/${job}/${name}`;

// Hands on each event of a job, until its last one or until the server is gone.
export function follow(job, hear) {
  const source = new EventSource(`jobs/${job}`);
  source.onmessage = (message) => {
    const event = JSON.parse(message.data);
    if (event.told === "end") source.close();
    hear(event);
  };
  source.onerror = () => {
    source.close();
    hear({ told: "fault", why: GONE });
    hear({ told: "end", files: {} });
  };
  return () => source.close();
}

// All that a short job tells, which is forgotten then.
export async function ask(question) {
  const job = await begin(question);
  const events = await new Promise((done) => {
    const heard = [];
    follow(job, (event) => {
      heard.push(event);
      if (event.told === "end") done(heard);
    });
  });
  await forget(job);
  return events;
}
