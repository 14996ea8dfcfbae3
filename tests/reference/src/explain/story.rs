//! What a script is about: a title, and lines of it with a caption. A picture shows them; a script has no place for them.

/// The most captions, and the most characters of the title and of a caption: so many fit into a picture.
const MOST: usize = 9;
const LONGEST_TITLE: usize = 70;
const LONGEST: usize = 90;

#[derive(Clone, Debug, Default, PartialEq, Eq)]
pub struct Story {
    /// Empty where there is none.
    pub title: String,
    pub captions: Vec<Caption>,
}

/// Words for a line of the script, from 1.
#[derive(Clone, Debug, PartialEq, Eq)]
pub struct Caption {
    pub line: usize,
    pub words: String,
}

impl Story {
    /// From a text: its first line is the title, and each other one the number of a line, a space and the caption, in
    /// order. Else the number of the line that is wrong, and why.
    pub fn parse(text: &str) -> Result<Story, (usize, String)> {
        let mut story = Story::default();
        for (number, line) in (1..).zip(text.lines()) {
            let taken = if number == 1 { story.entitle(line) } else { story.add(line) };
            taken.map_err(|wrong| (number, wrong))?;
        }
        Ok(story)
    }

    fn entitle(&mut self, title: &str) -> Result<(), String> {
        self.title = fitting(title, LONGEST_TITLE)?;
        Ok(())
    }

    fn add(&mut self, line: &str) -> Result<(), String> {
        let former = self.captions.last().map_or(0, |caption| caption.line);
        let (number, words) = line.split_once(' ').ok_or("a caption is a line's number, a space and words")?;
        let line = number.parse().ok().filter(|&line| line > former).ok_or("lines are numbers in order, from 1 on")?;
        if self.captions.len() == MOST {
            return Err(format!("a story has at most {MOST} captions"));
        }
        self.captions.push(Caption { line, words: fitting(words, LONGEST)? });
        Ok(())
    }
}

fn fitting(words: &str, longest: usize) -> Result<String, String> {
    if !(1..=longest).contains(&words.chars().count()) {
        return Err(format!("words have 1 to {longest} characters here"));
    }
    Ok(words.into())
}

#[cfg(test)]
mod tests {
    use super::*;

    #[test]
    fn a_title_and_captions() {
        let caption = |line, words: &str| Caption { line, words: words.into() };
        let captions = vec![caption(3, "it begins"), caption(12, "it ends")];
        let story = Story { title: "A weekend".into(), captions };
        assert_eq!(Story::parse("A weekend\n3 it begins\n12 it ends\n"), Ok(story));
        assert_eq!(Story::parse(""), Ok(Story::default()));
    }

    #[test]
    fn what_is_wrong_and_where() {
        let wrong = |text: &str| Story::parse(text).unwrap_err().0;
        assert_eq!(wrong("\n3 it begins"), 1);
        assert_eq!(wrong(&"x".repeat(LONGEST_TITLE + 1)), 1);
        assert_eq!(wrong("A weekend\n3\n"), 2);
        assert_eq!(wrong("A weekend\n0 it begins\n"), 2);
        assert_eq!(wrong("A weekend\n3 it begins\n3 it ends\n"), 3);
        assert_eq!(wrong(&format!("A weekend\n3 {}\n", "x".repeat(LONGEST + 1))), 2);
        let many: String = (1..=MOST + 1).map(|line| format!("{line} x\n")).collect();
        assert_eq!(wrong(&format!("A weekend\n{many}")), MOST + 2);
    }
}
