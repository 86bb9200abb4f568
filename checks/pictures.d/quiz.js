// Answers the questions of a quiz's page in a frame of WIDTH x HEIGHT: each badly twice, or in turn wrong or right. What is wrong goes to the
// window around the frame.
'use strict';
const wrong = [], counts = { questions: 0, 'audits of quizzes': 0 };
const say = text => { if (wrong.length < 20) wrong.push('question ' + (now + 1) + ': ' + text); };
const shown = () => !at('picture').hidden && at('picture').querySelector('svg') !== null;
const begins = text => { if (!at('verdict').textContent.startsWith(text)) say('the verdict is ' + at('verdict').textContent); };

function give(guess) {
  at('guess').value = guess;
  at('form').requestSubmit();
}

function go() {
  questions.forEach((question, place) => {
    const isAudit = question.line.startsWith('audit'), isOutcomes = question.form.startsWith('pa ');
    counts.questions++;
    counts['audits of quizzes'] += isAudit ? 1 : 0;
    if (document.documentElement.scrollWidth > innerWidth) say('the page scrolls to the right');
    if (shown() !== (question.before !== null && !isAudit)) say('the picture before is ' + (shown() ? '' : 'not ') + 'shown');
    if (isAudit && !at('caption').textContent.includes('comes with the answer')) say('the caption is ' + at('caption').textContent);
    if (isOutcomes) begins('Give each permitted outcome, with ; between');
    if (place % 2) give(isOutcomes ? question.answer.replace(/\([^)]*\)/g, '').replace(/;/g, ',') : question.answer);
    else {
      give('nonsense');
      begins('no answer: once more, in the form ');
      if (answered || shown() && isAudit) say('the answer is shown at once');
      give('nonsense');
    }
    begins(place % 2 ? 'right: ' + question.answer : 'not understood: it is ' + question.answer);
    if (shown() !== (question.after !== null)) say('the picture after is ' + (shown() ? '' : 'not ') + 'shown');
    if (place + 1 < questions.length) goOn();
  });
  if (at('score').textContent !== right + ' right of ' + questions.length || right !== questions.length >> 1) say('the score is ' + at('score').textContent);
}

try { go(); } catch (error) { wrong.push(String(error) + ' at question ' + (now + 1)); }
parent.postMessage(JSON.stringify({ wrong, counts }), '*');
