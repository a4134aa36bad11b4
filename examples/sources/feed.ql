# Threads of posts and replies: an object of this type for each thread. Posts are made anywhere, at once.
type thread {
  state bodies: map(text, text) = empty;
  state answers: map(text, text) = empty;
  state hearts: map(text, int) = empty;

  op post(key: text, body: text): unit {
    contract true;
    answer unit;
    emit k: text = key, b: text = body when true;
    apply { bodies := put(bodies, k, b); }
  }

  # A reply is refused where its author doesn't see the post that it answers.
  op reply(to: text, key: text, body: text): bool {
    contract forall a. soo(a, cur) => vis(a, cur);
    answer has(bodies, to);
    emit t: text = to, k: text = key, b: text = body when has(bodies, to);
    apply { bodies := put(bodies, k, b); answers := put(answers, k, t); }
  }

  op heart(key: text): unit {
    contract true;
    answer unit;
    emit k: text = key when true;
    apply { hearts := put(hearts, k, get(hearts, k, 0) + 1); }
  }

  # Who reads a reply also reads what its author had read.
  op read(): map(text, text) {
    contract forall a, b. vis(a, b) /\ vis(b, cur) => vis(a, cur);
    answer bodies;
  }

  # A page that is loaded again doesn't lose what it showed, and shows the reader's own posts.
  op read_again(): map(text, text) {
    contract forall a, b.
      (soo(a, cur) => vis(a, cur)) /\ (vis(a, b) /\ soo(b, cur) => vis(a, cur));
    answer bodies;
  }

  op hearts_of(key: text): int {
    contract true;
    answer get(hearts, key, 0);
  }
}
