start();
listenForTables();
listenForChoices();
listenForChart();
listenForMessages();
listenForCopies();
addEventListener("hashchange", readAddress);
readAddress();
