Hello
<?= 1+2 ?>
Bye